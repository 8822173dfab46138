(* The shape that an OCaml type is, from the description of its bytes that [@@deriving bin_io] makes of it: the text of the shape
   is `Shape_of.text bin_shape_t`. With shape.ml it can be copied into a program that has the types. *)
module S = Sexplib0.Sexp

exception No of string

let no why = raise (No why)

let is_sexp = function
  | S.List
      [ Atom "Exp"
      ; List
          [ Atom "Variant"
          ; List
              [ List [ Atom "Atom"; List [ List [ Atom "Exp"; List [ Atom "Base"; Atom "string"; List [] ] ] ] ]
              ; List [ Atom "List"; List [ List [ Atom "Exp"; List [ Atom "Base"; Atom "list"; List [ again ] ] ] ] ]
              ]
          ]
      ] -> again = S.List [ Atom "Exp"; List [ Atom "Rec_app"; Atom "0"; List [] ] ]
  | _ -> false

(* Reads the sexp of a `Bin_prot.Shape.Canonical.t`. *)
let rec shape t =
  match t with
  | S.List [ Atom "Exp"; List [ Atom "Base"; Atom name; List args ] ] -> base name args
  | List [ Atom "Exp"; List [ Atom "Annotate"; Atom _; s ] ] -> shape s
  | List [ Atom "Exp"; List [ Atom "Tuple"; List l ] ] -> Shape.Tuple (List.map shape l)
  | List [ Atom "Exp"; List [ Atom "Record"; List l ] ] -> Fields (List.map field l)
  | List [ Atom "Exp"; List [ Atom "Variant"; List l ] ] -> Sum (List.map case l)
  | List [ Atom "Exp"; List [ Atom "Poly_variant"; List [ List [ Atom "sorted"; List l ] ] ] ] -> Poly (List.map poly_case l)
  | List [ Atom "Exp"; List [ Atom "Application"; s; List [] ] ] when is_sexp s -> Sexp
  | List [ Atom "Exp"; List (Atom ("Application" | "Rec_app") :: _) ] -> no "a recursive type"
  | _ -> no ("not understood: " ^ S.to_string t)

and field = function
  | List [ Atom name; s ] -> name, shape s
  | t -> no ("not understood: " ^ S.to_string t)

and case = function
  | List [ Atom name; List l ] -> name, List.map shape l
  | t -> no ("not understood: " ^ S.to_string t)

and poly_case = function
  | List [ Atom name; List [] ] -> name, None
  | List [ Atom name; List [ s ] ] -> name, Some (shape s)
  | t -> no ("not understood: " ^ S.to_string t)

and base name args =
  match name, args with
  | "unit", [] -> Unit
  | "bool", [] -> Bool
  | "char", [] -> Char
  | "int", [] -> Int
  | "int32", [] -> Int32
  | ("int64" | "nativeint"), [] -> Int64
  | ("string" | "bytes" | "bigstring"), [] -> Text
  | "option", [ s ] -> Opt (shape s)
  | ("list" | "array"), [ s ] -> Items (shape s)
  | ("ref" | "lazy"), [ s ] -> shape s
  | "hashtbl", [ key; data ] -> Items (Tuple [ shape key; shape data ])
  | _ -> no ("no shape has the bytes of " ^ name)

let of_bin_shape s = shape (Bin_prot.Shape.Canonical.sexp_of_t (Bin_prot.Shape.eval s))

(* The text, or why there is none. *)
let text s =
  match of_bin_shape s with
  | s -> Ok (Shape.text s)
  | exception No why -> Error why
