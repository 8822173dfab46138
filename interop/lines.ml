(* What the library says, as lines of parts with tabs between them: of each value `value`, the shape, the value's text and the
   library's bytes; of each damaged spelling `damaged`, the shape, the bytes and what the library says of them. *)

let print_of rng ~values ~damaged (Held.Held h) =
  let desc = h.desc in
  let shape = Shape.text desc.shape in
  let vs = Gen.values rng desc.shape ~count:values in
  let value v =
    let a = desc.make v in
    Printf.printf "value\t%s\t%s\t%s\n" shape (Shape.value_text desc.shape (desc.view a)) (Rpc.hex (Library.dump h.bin a))
  in
  let damage bytes =
    Printf.printf "damaged\t%s\t%s\t%s\n" shape (Rpc.hex bytes) (Verdict.library_text (Library.judge desc h.bin bytes))
  in
  List.iter value vs;
  List.iter damage (Damage.some rng desc h.bin vs ~count:damaged)

let print ~cases ~seed =
  let values, damaged = Held.counts cases in
  List.iter (print_of (Random.State.make [| seed |]) ~values ~damaged) Held.all
