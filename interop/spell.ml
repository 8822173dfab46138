(* Spellings of values by docs/FORMATS.md, with each number in a form that is chosen at random among those that hold it. The
   library and `rpc` both write the shortest form, so longer ones can come from elsewhere alone. *)

open Shape

let payload out bytes n =
  for i = 0 to bytes - 1 do
    Buffer.add_char out (Char.chr (Int64.to_int (Int64.logand (Int64.shift_right_logical n (8 * i)) 0xFFL)))
  done

let form out code bytes n () =
  Buffer.add_char out (Char.chr code);
  payload out bytes n

let choose rng forms = List.nth forms (Random.State.int rng (List.length forms)) ()

let byte out n () = Buffer.add_char out (Char.chr (Int64.to_int n))
let forms l = List.filter_map (fun (stands, put) -> if stands then Some put else None) l

let put_nat0 rng out length =
  let n = Int64.of_int length in
  choose rng
    (forms
       [ length < 128, byte out n
       ; length < 0x1_0000, form out 0xFE 2 n
       ; length < 0x1_0000_0000, form out 0xFD 4 n
       ; true, form out 0xFC 8 n
       ])

let put_int rng out ~eight n =
  let from a b = Int64.compare a n <= 0 && Int64.compare n b <= 0 in
  choose rng
    (forms
       [ from 0L 127L, byte out n
       ; from (-128L) (-1L), form out 0xFF 1 n
       ; from (-32768L) 32767L, form out 0xFE 2 n
       ; from (-2147483648L) 2147483647L, form out 0xFD 4 n
       ; eight, form out 0xFC 8 n
       ])

let put_string rng out s =
  put_nat0 rng out (String.length s);
  Buffer.add_string out s

let rec put_sexp rng out = function
  | Atom s -> Buffer.add_char out '\000'; put_string rng out s
  | List l ->
    Buffer.add_char out '\001';
    put_nat0 rng out (List.length l);
    List.iter (put_sexp rng out) l

(* The tag of a polymorphic variant's case: docs/FORMATS.md, "Tags". *)
let tag name =
  let low = String.fold_left (fun h c -> ((223 * h) + Char.code c) land 0x7FFF_FFFF) 0 name in
  let signed = if low > 0x3FFF_FFFF then low - 0x8000_0000 else low in
  Int64.of_int ((2 * signed) + 1)

let tag_bytes name =
  let out = Buffer.create 4 in
  payload out 4 (tag name);
  Buffer.contents out

(* The tags of each polymorphic variant in a shape. *)
let rec tags = function
  | Unit | Bool | Char | Int | Int32 | Int64 | Text | Sexp -> []
  | Opt s | Items s -> tags s
  | Tuple l -> List.concat_map tags l
  | Fields l -> List.concat_map (fun (_, s) -> tags s) l
  | Sum l -> List.concat_map (fun (_, l) -> List.concat_map tags l) l
  | Poly l -> List.map (fun (name, _) -> tag_bytes name) l :: List.concat_map (fun (_, s) -> List.concat_map tags (Option.to_list s)) l

let rec put rng out s v =
  match s, v with
  | Unit, Nothing | Opt _, Absent -> Buffer.add_char out '\000'
  | Bool, Truth b -> Buffer.add_char out (if b then '\001' else '\000')
  | Char, Byte c -> Buffer.add_char out c
  | (Int | Int64), Num n -> put_int rng out ~eight:true n
  | Int32, Num n -> put_int rng out ~eight:false n
  | Text, Bytes s -> put_string rng out s
  | Sexp, Tree t -> put_sexp rng out t
  | Opt s, Present v -> Buffer.add_char out '\001'; put rng out s v
  | Items s, Many l -> put_nat0 rng out (List.length l); List.iter (put rng out s) l
  | Tuple l, Parts vs -> List.iter2 (put rng out) l vs
  | Fields l, Parts vs -> List.iter2 (fun (_, s) v -> put rng out s v) l vs
  | Sum l, Case (k, vs) -> Buffer.add_char out (Char.chr k); List.iter2 (put rng out) (snd (List.nth l k)) vs
  | Poly l, Case (k, vs) ->
    let name, argument = List.nth l k in
    Buffer.add_string out (tag_bytes name);
    List.iter2 (put rng out) (Option.to_list argument) vs
  | _ -> raise Does_not_fit

let value rng s v =
  let out = Buffer.create 100 in
  put rng out s v;
  Buffer.contents out
