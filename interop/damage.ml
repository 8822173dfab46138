(* Damaged spellings: cut, with a byte changed, put in or left out, or with bytes after them. *)

let special = "\x00\x01\x02\x03\x7F\x80\xFB\xFC\xFD\xFE\xFF"

let one rng bytes =
  let length = String.length bytes in
  let at = Random.State.int rng length in
  let some () =
    if Random.State.bool rng then Char.chr (Random.State.int rng 256) else special.[Random.State.int rng (String.length special)]
  in
  let front = String.sub bytes 0 at in
  let back from = String.sub bytes from (length - from) in
  match Random.State.int rng 6 with
  | 0 -> front
  | 1 -> bytes ^ String.init (1 + Random.State.int rng 3) (fun _ -> some ())
  | 2 -> front ^ back (at + 1)
  | 3 -> Printf.sprintf "%s%c%s" front (some ()) (back at)
  | _ -> Printf.sprintf "%s%c%s" front (some ()) (back (at + 1))

let pick rng l = List.nth l (Random.State.int rng (List.length l))

(* So many, of what the library writes for small ones of the values and of other spellings of them. *)
let some rng (desc : 'a Desc.t) bin vs ~count =
  let small v = let s = Library.dump bin (desc.make v) in if String.length s <= 400 then Some (v, s) else None in
  let small = List.filter_map small vs in
  let spelled () =
    let v, s = pick rng small in
    if Random.State.bool rng then s else Spell.value rng desc.shape v
  in
  List.init count (fun _ -> one rng (spelled ()))
