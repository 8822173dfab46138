(* Chosen spellings, each with what the library says of it and what `rpc show` writes: one for each way to be refused, and one for
   each listed difference. *)

type row =
  | Row :
      { desc : 'a Desc.t
      ; bin : 'a Bin_prot.Type_class.t
      ; bytes : string
      ; library : string
      ; ours : string
      }
      -> row

open Desc
open Types

let row desc bin hex library ours = Row { desc; bin; bytes = Rpc.bytes hex; library; ours }

(* An S-expression of lists of one item, so deep. *)
let nested depth = String.concat "" (List.init (depth - 1) (fun _ -> "01 01 ")) ^ "01 00"

let numbers =
  [ row int bin_t_int "FF 80" "read, 2 bytes" "read, 2 bytes"
  ; row int bin_t_int "FF 7F" "Neg_int8 at 0" "refused at 1: sign"
  ; row int bin_t_int "FF 00" "Neg_int8 at 0" "refused at 1: sign"
  ; row int32 bin_t_int32 "FF 05" "Neg_int8 at 0" "refused at 1: sign"
  ; row int64 bin_t_int64 "FF 05" "Neg_int8 at 0" "refused at 1: sign"
  ; row nativeint bin_t_nativeint "FF 05" "Neg_int8 at 0" "refused at 1: sign"
  ; row int bin_t_int "80" "Int_code at 0" "refused at 0: code"
  ; row int32 bin_t_int32 "FB" "Int32_code at 0" "refused at 0: code"
  ; row int64 bin_t_int64 "9A 00" "Int64_code at 0" "refused at 0: code"
  ; row int32 bin_t_int32 "FC 05 00 00 00 00 00 00 00" "Int32_code at 0" "refused at 0: code"
  ; row int64 bin_t_int64 "FC 05 00 00 00 00 00 00 00" "read, 9 bytes" "read, 9 bytes"
  ; row int bin_t_int "FC FF FF FF FF FF FF FF 3F" "read, 9 bytes" "read, 9 bytes"
  ; row int bin_t_int "FC 00 00 00 00 00 00 00 40" "Int_overflow at 0" "refused at 8: range"
  ; row int bin_t_int "FC 00 00 00 00 00 00 00 C0" "read, 9 bytes" "read, 9 bytes"
  ; row int bin_t_int "FC FF FF FF FF FF FF FF BF" "Int_overflow at 0" "refused at 8: range"
  ; row int bin_t_int "FC 00 00 00 00 00 00 00" "Buffer_short" "cut at 8"
  ; row int bin_t_int "FE 05 00" "read, 3 bytes" "read, 3 bytes"
  ; row int bin_t_int "FE 00" "Buffer_short" "cut at 2"
  ; row int bin_t_int "05 06" "read, 1 bytes" "trailing at 1"
  ]

let lengths =
  [ row string bin_t_string "FF 05" "Nat0_code at 0" "refused at 0: code"
  ; row string bin_t_string "FC 01 00 00 00 00 00 00 00 61" "read, 10 bytes" "read, 10 bytes"
  ; row string bin_t_string "FC 00 00 00 00 00 00 00 40" "Nat0_overflow at 0" "refused at 8: length"
  ; row string bin_t_string "FC FF FF FF FF FF FF FF 7F" "Nat0_overflow at 0" "refused at 4: length"
  ; row string bin_t_string "FC FF FF FF FF FF FF FF FF" "Nat0_overflow at 0" "refused at 4: length"
  ; row string bin_t_string "FC FF FF FF FF FF FF FF 3F" "String_too_long at 0" "refused at 4: length"
  ; row string bin_t_string "FD 00 00 40 06" "Buffer_short" "cut at 5"
  ; row string bin_t_string "FD 01 00 40 06" "Buffer_short" "refused at 4: length"
  ; row string bin_t_string "FD FF FF FF FF" "Buffer_short" "refused at 4: length"
  ; row (list int) bin_ints "FD FF FF FF FF 01" "Buffer_short" "refused at 4: length"
  ; row (list int) bin_ints "FD FF FF FF FF 80" "Int_code at 5" "refused at 4: length"
  ; row (array int64) bin_int64s "FC FF FF FF FF FF FF FF 3F 01" "Array_too_long at 0" "refused at 4: length"
  ; row (array int64) bin_int64s "FD FF FF FF 7F 01" "Out_of_memory" "refused at 4: length" (* at the limit that `run` sets *)
  ]

let others =
  [ row unit bin_t_unit "01" "Unit_code at 0" "refused at 0: byte"
  ; row bool bin_t_bool "02" "Bool_code at 0" "refused at 0: byte"
  ; row (option int) bin_int_option "02 05" "Option_code at 0" "refused at 0: byte"
  ; row color bin_color "03" "Sum_tag at 1" "refused at 0: case"
  ; row Wide.t200 Wide.bin_t200 "C8" "Sum_tag at 1" "refused at 0: case"
  ; row sexp bin_sexp "02" "Sum_tag at 1" "refused at 0: case"
  ; row found bin_found "39 79 69 00" "read, 4 bytes" "read, 4 bytes"
  ; row found bin_found "39 79 69 01" "Variant at 4" "refused at 3: tag"
  ; row Messages.rpc_error Messages.bin_rpc_error "04 00 1D 86 94 7F" "Variant_wrong_type at 6" "refused at 2: tag"
  ; row found bin_found "38 79 69 00" "Variant_tag at 0" "refused at 0: tag"
  ; row found bin_found "39 79" "Buffer_short" "cut at 2"
  ; row found bin_found "39 8A" "Buffer_short" "refused at 1: tag"
  ; row sexp bin_sexp (nested 128) "read, 256 bytes" "read, 256 bytes"
  ; row sexp bin_sexp (nested 129) "read, 258 bytes" "refused at 255: length"
  ; row sexp bin_sexp "01 01 01 05 00" "Buffer_short" "cut at 5"
  ]

let rows = numbers @ lengths @ others
