(* Calls of the real library. *)

module Common = Bin_prot.Common
module Type_class = Bin_prot.Type_class

let dump (bin : 'a Type_class.t) a =
  let buf = Bin_prot.Utils.bin_dump bin.writer a in
  let bytes = Bytes.create (Bigarray.Array1.dim buf) in
  Common.blit_buf_bytes buf bytes ~len:(Bytes.length bytes);
  Bytes.to_string bytes

(* The value and how many bytes it took. *)
let read (bin : 'a Type_class.t) bytes =
  let buf = Common.create_buf (String.length bytes) in
  Common.blit_string_buf bytes buf ~len:(String.length bytes);
  let pos_ref = ref 0 in
  let a = bin.reader.read buf ~pos_ref in
  a, !pos_ref

let judge (desc : 'a Desc.t) bin bytes =
  match read bin bytes with
  | a, taken ->
    let v = desc.view a in
    Verdict.Read { text = Shape.value_text desc.shape v; taken; depth = Shape.depth v }
  | exception Common.Buffer_short -> Short
  | exception Common.Read_error (error, at) -> Refused (error, at)
  | exception Out_of_memory -> No_room
