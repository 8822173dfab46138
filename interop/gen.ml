(* Values of a shape: those at its edges, and random ones. *)

open Shape

let least = function
  | Int32 -> Int64.of_int32 Int32.min_int
  | Int64 -> Int64.min_int
  | _ -> Int64.of_int min_int

let most = function
  | Int32 -> Int64.of_int32 Int32.max_int
  | Int64 -> Int64.max_int
  | _ -> Int64.of_int max_int

let is_in s n = Int64.compare (least s) n <= 0 && Int64.compare n (most s) <= 0

(* Each power of two that ends a form or a range, its neighbours, and the same below 0. *)
let number_edges s =
  let powers = [ 0; 7; 8; 15; 16; 31; 32; 61; 62; 63 ] in
  let near k = let p = Int64.shift_left 1L k in [ Int64.pred p; p; Int64.succ p ] in
  let all = List.concat_map near powers in
  let all = List.concat_map (fun n -> [ n; Int64.neg n ]) all in
  List.map (fun n -> Num n) (List.sort_uniq compare (List.filter (is_in s) (least s :: most s :: all)))

let counted length = String.init length (fun i -> Char.chr ((i * 37 + length) land 255))
let text_lengths = [ 0; 1; 127; 128; 255; 256; 65535; 65536 ]

let rec nested_sexp depth = if depth = 1 then List [] else List [ nested_sexp (depth - 1) ]

let sexp_edges =
  let atoms = List.map (fun n -> Atom (counted n)) [ 0; 1; 127; 128 ] in
  let many n = List (List.init n (fun i -> Atom (string_of_int i))) in
  let deep_atom = List.fold_left (fun t _ -> List [ t; Atom "x" ]) (Atom "deep") (List.init 127 Fun.id) in
  List.map (fun t -> Tree t)
    (atoms @ [ List []; List atoms; List [ List []; Atom "a"; List [ List [ Atom "b" ] ] ]; many 127; many 128; nested_sexp 128; deep_atom ])

(* Random values. The budget keeps them small: each list has at most so many items. *)

let number rng s =
  let bits = 1 + Random.State.int rng 64 in
  let n = Int64.shift_right_logical (Random.State.int64 rng Int64.max_int) (64 - bits) in
  let n = if Random.State.bool rng then Int64.neg n else n in
  if is_in s n then n else Int64.shift_right n 33

let length rng budget =
  match Random.State.int rng 40 with
  | 0 -> min budget (120 + Random.State.int rng 20)
  | k when k < 8 -> 0
  | _ -> Random.State.int rng (1 + min budget 12)

let string rng budget =
  let any = Random.State.bool rng in
  String.init (length rng budget) (fun _ ->
    Char.chr (if any then Random.State.int rng 256 else 32 + Random.State.int rng 95))

let rec sexp rng budget =
  if budget = 0 || Random.State.int rng 3 = 0
  then Atom (string rng 20)
  else List (List.init (Random.State.int rng (1 + min budget 6)) (fun _ -> sexp rng (budget / 3)))

let rec random rng budget s =
  match s with
  | Unit -> Nothing
  | Bool -> Truth (Random.State.bool rng)
  | Char -> Byte (Char.chr (Random.State.int rng 256))
  | Int | Int32 | Int64 -> Num (number rng s)
  | Text -> Bytes (string rng 200)
  | Sexp -> Tree (sexp rng 30)
  | Opt s -> if Random.State.int rng 3 = 0 then Absent else Present (random rng budget s)
  | Items s ->
    let n = length rng budget in
    Many (List.init n (fun _ -> random rng (budget / (1 + n)) s))
  | Tuple l -> Parts (List.map (random rng budget) l)
  | Fields l -> Parts (List.map (fun (_, s) -> random rng budget s) l)
  | Sum l -> let k = Random.State.int rng (List.length l) in Case (k, List.map (random rng budget) (snd (List.nth l k)))
  | Poly l ->
    let k = Random.State.int rng (List.length l) in
    Case (k, List.map (random rng budget) (Option.to_list (snd (List.nth l k))))

(* Edges. Of several parts one is at an edge and the others are random. *)

let lists_of rng s edges =
  let wide = match s with Unit | Bool | Char | Int -> [ 65535; 65536 ] | _ -> [] in
  let long n = Many (List.init n (fun _ -> random rng 0 s)) in
  (Many [] :: List.map (fun v -> Many [ v ]) edges) @ List.map long ([ 2; 127; 128 ] @ wide)

let rec edges rng ~top s =
  match s with
  | Unit -> [ Nothing ]
  | Bool -> [ Truth false; Truth true ]
  | Char -> List.init 256 (fun k -> Byte (Char.chr k))
  | Int | Int32 | Int64 -> number_edges s
  | Text -> List.map (fun n -> Bytes (counted n)) (List.filter (fun n -> top || n < 1000) text_lengths)
  | Sexp -> sexp_edges
  | Opt s -> Absent :: List.map (fun v -> Present v) (edges rng ~top s)
  | Items s -> lists_of rng s (edges rng ~top:false s)
  | Tuple l -> List.map (fun vs -> Parts vs) (one_at_edge rng ~top l)
  | Fields l -> List.map (fun vs -> Parts vs) (one_at_edge rng ~top (List.map snd l))
  | Sum l -> cases rng (List.map snd l)
  | Poly l -> cases rng (List.map (fun (_, s) -> Option.to_list s) l)

and one_at_edge rng ~top l =
  let at i s = List.map (fun v -> List.mapi (fun j s -> if i = j then v else random rng 8 s) l) (edges rng ~top s) in
  match l with
  | [] -> [ [] ]
  | _ -> List.concat (List.mapi at l)

and cases rng l = List.concat (List.mapi (fun k args -> List.map (fun vs -> Case (k, vs)) (one_at_edge rng ~top:false args)) l)

(* The values at the edges, and then random ones. *)
let values rng s ~count = edges rng ~top:true s @ List.init count (fun _ -> random rng 40 s)
