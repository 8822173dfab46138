(* Shapes and values with their texts, written after docs/FORMATS.md and not after the code of `rpc`. *)

type sexp = Sexplib0.Sexp.t = Atom of string | List of sexp list

type t =
  | Unit
  | Bool
  | Char
  | Int
  | Int32
  | Int64
  | Text
  | Sexp
  | Opt of t
  | Items of t
  | Tuple of t list
  | Fields of (string * t) list
  | Sum of (string * t list) list
  | Poly of (string * t option) list

type value =
  | Nothing
  | Truth of bool
  | Byte of char
  | Num of int64
  | Bytes of string
  | Tree of sexp
  | Absent
  | Present of value
  | Many of value list
  | Parts of value list
  | Case of int * value list

exception Does_not_fit

(* Texts of shapes *)

let rec text = function
  | Unit -> "unit"
  | Bool -> "bool"
  | Char -> "char"
  | Int -> "int"
  | Int32 -> "int32"
  | Int64 -> "int64"
  | Text -> "string"
  | Sexp -> "sexp"
  | Opt s -> part s ^ " option"
  | Items s -> part s ^ " list"
  | Tuple l -> parts l
  | Fields l -> "{" ^ String.concat "; " (List.map (fun (name, s) -> name ^ ": " ^ text s) l) ^ "}"
  | Sum l ->
    let case = function
      | name, [] -> name
      | name, l -> name ^ " of " ^ parts l
    in
    "[" ^ String.concat " | " (List.map case l) ^ "]"
  | Poly l ->
    let case = function
      | name, None -> "`" ^ name
      | name, Some s -> "`" ^ name ^ " of " ^ text s
    in
    "[" ^ String.concat " | " (List.map case l) ^ "]"

and parts l = String.concat " * " (List.map part l)

and part s =
  match s with
  | Tuple _ -> "(" ^ text s ^ ")"
  | _ -> text s

(* The same shape with the cases of its polymorphic variants in the order of their names, which changes no byte. *)
let rec sorted = function
  | (Unit | Bool | Char | Int | Int32 | Int64 | Text | Sexp) as s -> s
  | Opt s -> Opt (sorted s)
  | Items s -> Items (sorted s)
  | Tuple l -> Tuple (List.map sorted l)
  | Fields l -> Fields (List.map (fun (name, s) -> name, sorted s) l)
  | Sum l -> Sum (List.map (fun (name, l) -> name, List.map sorted l) l)
  | Poly l -> Poly (List.sort compare (List.map (fun (name, s) -> name, Option.map sorted s) l))

(* Texts of values *)

let escapes = Array.init 256 (Printf.sprintf "\\x%02X")

let put_byte out c =
  match c with
  | '"' | '\'' | '\\' -> Buffer.add_char out '\\'; Buffer.add_char out c
  | ' ' .. '~' -> Buffer.add_char out c
  | _ -> Buffer.add_string out escapes.(Char.code c)

let put_text out s =
  Buffer.add_char out '"';
  String.iter (put_byte out) s;
  Buffer.add_char out '"'

let put_between out blank put l =
  List.iteri (fun i x -> if i > 0 then Buffer.add_string out blank; put x) l

let rec put_sexp out = function
  | Atom s -> put_text out s
  | List l ->
    Buffer.add_char out '(';
    put_between out " " (put_sexp out) l;
    Buffer.add_char out ')'

let put_in out opening closing blank put l =
  Buffer.add_string out opening;
  put_between out blank put l;
  Buffer.add_string out closing

let rec put_value out s v =
  match s, v with
  | Unit, Nothing -> Buffer.add_string out "()"
  | Bool, Truth b -> Buffer.add_string out (if b then "true" else "false")
  | Char, Byte c -> Buffer.add_char out '\''; put_byte out c; Buffer.add_char out '\''
  | (Int | Int32 | Int64), Num n -> Printf.bprintf out "%Ld" n
  | Text, Bytes s -> put_text out s
  | Sexp, Tree t -> put_sexp out t
  | Opt _, Absent -> Buffer.add_string out "none"
  | Opt s, Present v -> Buffer.add_string out "some "; put_value out s v
  | Items s, Many l -> put_in out "[" "]" "; " (put_value out s) l
  | Tuple l, Parts vs -> put_in out "(" ")" ", " (fun (s, v) -> put_value out s v) (List.combine l vs)
  | Fields l, Parts vs ->
    let field ((name, s), v) = Printf.bprintf out "%s = " name; put_value out s v in
    put_in out "{" "}" "; " field (List.combine l vs)
  | Sum l, Case (k, vs) ->
    let name, args = List.nth l k in
    Buffer.add_string out name;
    if args <> [] then put_in out "(" ")" ", " (fun (s, v) -> put_value out s v) (List.combine args vs)
  | Poly l, Case (k, vs) ->
    (match List.nth l k, vs with
     | (name, None), [] -> Printf.bprintf out "`%s" name
     | (name, Some s), [ v ] -> Printf.bprintf out "`%s(" name; put_value out s v; Buffer.add_char out ')'
     | _ -> raise Does_not_fit)
  | _ -> raise Does_not_fit

let value_text s v =
  let out = Buffer.create 100 in
  put_value out s v;
  Buffer.contents out

(* Depth of the S-expressions in a value *)

let rec sexp_depth = function
  | Atom _ | List [] -> 1
  | List l -> 1 + deepest sexp_depth l

and deepest : 'a. ('a -> int) -> 'a list -> int = fun depth l -> List.fold_left (fun most x -> max most (depth x)) 0 l

let rec depth = function
  | Tree t -> sexp_depth t
  | Present v -> depth v
  | Many l | Parts l | Case (_, l) -> deepest depth l
  | Nothing | Truth _ | Byte _ | Num _ | Bytes _ | Absent -> 0
