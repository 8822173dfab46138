(* Holds the program `rpc` against the library: hold RPC FOLDER SCHEMA CASES SEED. Or writes what the library has: hold lines CASES SEED.

   Each type's values are written by both, and `rpc` reads what the library wrote, and another spelling of the same values; then
   both are asked about damaged spellings. Ends with `N passed, M failed`. *)

module Type_class = Bin_prot.Type_class

type t =
  { rpc : Rpc.t
  ; rng : Random.State.t
  ; listed : (string, int) Hashtbl.t (* how often each listed difference came *)
  ; mutable passed : int
  ; mutable failed : int
  }

let shortened text =
  let text = String.concat " / " (String.split_on_char '\n' text) in
  if String.length text <= 200 then text else String.sub text 0 200 ^ ".."

let pass t count = t.passed <- t.passed + count

let fail t format =
  t.failed <- t.failed + 1;
  Printf.ksprintf (fun text -> if t.failed <= 50 then print_endline text) format

let check t what wanted got =
  if wanted = got then pass t 1 else fail t "%s: wanted %s, got %s" what (shortened wanted) (shortened got)

(* One value, which may be a list of many *)

(* Items in any order, for a hash table. *)
let rec unordered v =
  match v with
  | Shape.Many l -> Shape.Many (List.sort compare (List.map unordered l))
  | v -> v

(* Where rpc and the library differ on a value: each place with what was wanted and what came. *)
let faults t ~ordered (desc : 'a Desc.t) bin v =
  let a = desc.make v in
  (* A hash table has the order and the keys that it has. *)
  let v = desc.view a in
  let shape = Shape.text desc.shape and text = Shape.value_text desc.shape v in
  let bytes = Library.dump bin a and other = Spell.value t.rng desc.shape v in
  let shown bytes = 0, Printf.sprintf "%s\n%d bytes\n" text (String.length bytes) in
  let read_by_library bytes =
    match Library.read bin bytes with
    | a, taken ->
      let got = desc.view a in
      taken = String.length bytes && if ordered then got = v else unordered got = unordered v
    | exception _ -> false
  in
  let differs what wanted got =
    if wanted = got
    then None
    else Some (Printf.sprintf "%s %s: wanted %s, got %d %s" what shape (shortened (snd wanted)) (fst got) (shortened (snd got)))
  in
  List.filter_map Fun.id
    [ differs "write" (0, Rpc.hex bytes ^ "\n") (Rpc.write t.rpc shape text)
    ; differs "show" (shown bytes) (Rpc.show t.rpc shape bytes)
    ; differs ("show " ^ shortened (Rpc.hex other) ^ " as") (shown other) (Rpc.show t.rpc shape other)
    ; (if read_by_library bytes && read_by_library other then None else Some ("the library does not read what was spelled of " ^ shape))
    ]

(* What a value counts: it is written, and shown twice. *)
let each = 3

let hold_single t ~ordered desc bin v =
  match faults t ~ordered desc bin v with
  | [] -> pass t each
  | l -> List.iter (fun text -> fail t "%s; value %s" text (shortened (Shape.value_text desc.Desc.shape v))) l

(* The first so many and the rest. *)
let split l count = List.filteri (fun i _ -> i < count) l, List.filteri (fun i _ -> i >= count) l

(* Values as one list, and where that differs its halves, until each value that differs is found or so many failures are. *)
let rec hold_batch t ~ordered ~until (desc : 'a Desc.t) bin vs =
  if t.failed < until
  then (
    match faults t ~ordered (Desc.list desc) (Type_class.bin_list bin) (Shape.Many vs) with
    | [] -> pass t (each * List.length vs)
    | l ->
      let before = t.failed in
      (match vs with
       | [ v ] -> hold_single t ~ordered desc bin v
       | _ ->
         let first, rest = split vs (List.length vs / 2) in
         List.iter (hold_batch t ~ordered ~until desc bin) [ first; rest ]);
      if t.failed = before then List.iter (fun text -> fail t "%s; in parts it is the same" text) l)

(* The values in lists of which each has some megabyte of text at most. *)
let batches shape vs =
  let add (done_, now, size) v =
    let more = String.length (Shape.value_text shape v) in
    if now <> [] && (size + more > 1_000_000 || List.length now >= 2000)
    then List.rev now :: done_, [ v ], more
    else done_, v :: now, size + more
  in
  let done_, now, _ = List.fold_left add ([], [], 0) vs in
  List.rev (List.rev now :: done_)

(* Damaged spellings *)

let count_listed t name = Hashtbl.replace t.listed name (1 + Option.value (Hashtbl.find_opt t.listed name) ~default:0)

let judge t (desc : 'a Desc.t) bin bytes =
  let library = Library.judge desc bin bytes in
  let status, out = Rpc.show t.rpc (Shape.text desc.shape) bytes in
  library, Verdict.ours_of status out

let hold_damaged t ~ordered (desc : 'a Desc.t) bin bytes =
  let library, ours = judge t desc bin bytes in
  let library =
    match library, ours with
    | Read r, Shown (text, _) when not ordered -> Verdict.Read { r with text }
    | _ -> library
  in
  match Verdict.difference desc.shape bytes library ours with
  | Some name -> pass t 1; if name <> "" then count_listed t name
  | None ->
    fail t "show %s of %s: the library says %s, rpc says %s" (Shape.text desc.shape) (shortened (Rpc.hex bytes))
      (Verdict.library_text library) (Verdict.ours_text ours)

(* Everything of one type *)

let hold_type t ~values ~damaged (Held.Held h) =
  let desc = h.desc and before = t.passed in
  let named = if h.described then Ok (Shape.text (Shape.sorted desc.shape)) else Error "" in
  let derived = Result.map_error (fun _ -> "") (Shape_of.text h.bin.shape) in
  let told = function Ok text -> text | Error _ -> "no shape" in
  check t ("the library's description of " ^ h.name) (told named) (told derived);
  let vs = Gen.values t.rng desc.shape ~count:values in
  hold_single t ~ordered:h.ordered desc h.bin (List.hd vs);
  hold_single t ~ordered:h.ordered desc h.bin (List.hd (List.rev vs));
  List.iter (hold_batch t ~ordered:h.ordered ~until:(t.failed + 10) desc h.bin) (batches desc.shape vs);
  List.iter (hold_damaged t ~ordered:h.ordered desc h.bin) (Damage.some t.rng desc h.bin vs ~count:damaged);
  Printf.printf "%6d  %s: %s\n%!" (t.passed - before) h.name (shortened (Shape.text desc.shape))

let hold_row t (Directed.Row r) =
  let library, ours = judge t r.desc r.bin r.bytes in
  let what = Printf.sprintf "%s of %s" (shortened (Rpc.hex r.bytes)) (Shape.text r.desc.shape) in
  check t ("the library on " ^ what) r.library (Verdict.library_text library);
  check t ("rpc on " ^ what) r.ours (Verdict.ours_text ours);
  hold_damaged t ~ordered:true r.desc r.bin r.bytes

(* What the library has and a shape or a text has not. *)
let hold_limits t =
  let deep = Gen.nested_sexp 129 in
  check t "the library on a deep S-expression" "258" (string_of_int (String.length (Library.dump Types.bin_sexp deep)));
  let status, out = Rpc.write t.rpc "sexp" (Shape.value_text Sexp (Tree deep)) in
  check t "rpc on a deep S-expression" "1 value: bad text at 128\n" (Printf.sprintf "%d %s" status out);
  check t "the library on a variant of 257 cases" "0001" (Rpc.hex (Library.dump Wide.bin_t257 C256));
  let cases = List.init 257 (fun k -> Printf.sprintf "C%d" k) in
  let status, out = Rpc.show t.rpc ("[" ^ String.concat " | " cases ^ "]") "\000\001" in
  check t "rpc on a variant of 257 cases" "1 shape: not good: too many 257\n" (Printf.sprintf "%d %s" status out);
  check t "the library's description of a recursive type" "a recursive type"
    (match Shape_of.text Types.bin_shape_expression with Ok text -> text | Error why -> why)

let lines name =
  let text = Rpc.get name in
  List.filter (fun line -> line <> "" && line.[0] <> '#') (String.split_on_char '\n' text)

let () =
  match Sys.argv with
  | [| _; "lines"; cases; seed |] -> Lines.print ~cases:(int_of_string cases) ~seed:(int_of_string seed)
  | [| _; program; folder; schema; cases; seed |] ->
    let cases = int_of_string cases and seed = int_of_string seed in
    let t =
      { rpc = Rpc.create program folder; rng = Random.State.make [| seed |]; listed = Hashtbl.create 10; passed = 0; failed = 0 }
    in
    let types = List.length Held.all and values, damaged = Held.counts cases in
    List.iter (hold_type t ~values ~damaged) Held.all;
    List.iter (hold_row t) Directed.rows;
    hold_limits t;
    check t "the schema of the service" (String.concat "\n" (Service.schema ())) (String.concat "\n" (lines schema));
    print_endline "listed differences that came:";
    let listed = List.sort compare (List.of_seq (Hashtbl.to_seq t.listed)) in
    List.iter (fun (name, count) -> Printf.printf "%6d  %s\n" count name) listed;
    Printf.printf "%d types, %d random values each, seed %d, %d runs of rpc\n" types values seed t.rpc.runs;
    Printf.printf "%d passed, %d failed\n" t.passed t.failed;
    exit (if t.failed = 0 then 0 else 1)
  | _ ->
    prerr_endline "usage: hold RPC FOLDER SCHEMA CASES SEED, or hold lines CASES SEED";
    exit 2
