(* What an OCaml type is as a shape, and its values both ways. The types' own `bin_io` has no part in this. *)

open Shape

type 'a t =
  { shape : Shape.t
  ; view : 'a -> value
  ; make : value -> 'a
  }

let no _ = raise Does_not_fit
let unit = { shape = Unit; view = (fun () -> Nothing); make = (function Nothing -> () | v -> no v) }
let bool = { shape = Bool; view = (fun b -> Truth b); make = (function Truth b -> b | v -> no v) }
let char = { shape = Char; view = (fun c -> Byte c); make = (function Byte c -> c | v -> no v) }

let number shape to_int64 of_int64 =
  { shape; view = (fun n -> Num (to_int64 n)); make = (function Num n -> of_int64 n | v -> no v) }

let int = number Int Int64.of_int Int64.to_int
let int32 = number Int32 Int64.of_int32 Int64.to_int32
let int64 = number Int64 Fun.id Fun.id
let nativeint = number Int64 Int64.of_nativeint Int64.to_nativeint
let string = { shape = Text; view = (fun s -> Bytes s); make = (function Bytes s -> s | v -> no v) }
let sexp = { shape = Sexp; view = (fun t -> Tree t); make = (function Tree t -> t | v -> no v) }

(* The same shape and values, for a type with values a to and from those of d. *)
let iso d to_d of_d = { shape = d.shape; view = (fun a -> d.view (to_d a)); make = (fun v -> of_d (d.make v)) }

let option d =
  { shape = Opt d.shape
  ; view = (function None -> Absent | Some a -> Present (d.view a))
  ; make = (function Absent -> None | Present v -> Some (d.make v) | v -> no v)
  }

let list d =
  { shape = Items d.shape
  ; view = (fun l -> Many (List.rev (List.rev_map d.view l)))
  ; make = (function Many l -> List.rev (List.rev_map d.make l) | v -> no v)
  }

let array d = iso (list d) Array.to_list Array.of_list

let pair a b =
  { shape = Tuple [ a.shape; b.shape ]
  ; view = (fun (x, y) -> Parts [ a.view x; b.view y ])
  ; make = (function Parts [ x; y ] -> a.make x, b.make y | v -> no v)
  }

let triple a b c =
  { shape = Tuple [ a.shape; b.shape; c.shape ]
  ; view = (fun (x, y, z) -> Parts [ a.view x; b.view y; c.view z ])
  ; make = (function Parts [ x; y; z ] -> a.make x, b.make y, c.make z | v -> no v)
  }

let quadruple a b c d =
  { shape = Tuple [ a.shape; b.shape; c.shape; d.shape ]
  ; view = (fun (x, y, z, u) -> Parts [ a.view x; b.view y; c.view z; d.view u ])
  ; make = (function Parts [ x; y; z; u ] -> a.make x, b.make y, c.make z, d.make u | v -> no v)
  }

(* A record whose fields are as the parts of a tuple. *)
let fields names d to_tuple of_tuple =
  match d.shape with
  | Tuple l -> { (iso d to_tuple of_tuple) with shape = Fields (List.combine names l) }
  | _ -> invalid_arg "fields"

(* A record of one field. *)
let field name d to_field of_field =
  { shape = Fields [ name, d.shape ]
  ; view = (fun a -> Parts [ d.view (to_field a) ])
  ; make = (function Parts [ v ] -> of_field (d.make v) | v -> no v)
  }

let sum cases view make = { shape = Sum cases; view; make }
let poly cases view make = { shape = Poly cases; view; make }

(* A variant, polymorphic or not, whose cases have no argument, from the list of its values. *)
let constants cases all =
  let rec place a k = function
    | [] -> raise Does_not_fit
    | x :: _ when x = a -> k
    | _ :: l -> place a (k + 1) l
  in
  { shape = cases; view = (fun a -> Case (place a 0 all, [])); make = (function Case (k, []) -> List.nth all k | v -> no v) }
