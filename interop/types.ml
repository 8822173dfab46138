(* OCaml types with the library's own `bin_io`, and what each is as a shape. *)

open Shape
open Bin_prot.Std
open Desc

type bigstring = Bin_prot.Common.buf
type ('k, 'v) hashtbl = ('k, 'v) Hashtbl.t

(* As Core has it. *)
type sexp = Shape.sexp = Atom of string | List of sexp list [@@deriving bin_io]

(* Base types *)

type t_unit = unit [@@deriving bin_io]
type t_bool = bool [@@deriving bin_io]
type t_char = char [@@deriving bin_io]
type t_int = int [@@deriving bin_io]
type t_int32 = int32 [@@deriving bin_io]
type t_int64 = int64 [@@deriving bin_io]
type t_nativeint = nativeint [@@deriving bin_io]
type t_string = string [@@deriving bin_io]
type t_bytes = bytes [@@deriving bin_io]
type t_bigstring = bigstring [@@deriving bin_io]

let bytes = iso string Bytes.to_string Bytes.of_string

let bigstring =
  let to_string b = String.init (Bigarray.Array1.dim b) (Bigarray.Array1.get b) in
  let of_string s =
    let b = Bin_prot.Common.create_buf (String.length s) in
    Bin_prot.Common.blit_string_buf s b ~len:(String.length s);
    b
  in
  iso string to_string of_string

(* Options, lists, arrays and what holds one value *)

type int_option = int option [@@deriving bin_io]
type option_option = string option option [@@deriving bin_io]
type strings = string list [@@deriving bin_io]
type units = unit list [@@deriving bin_io]
type ints = int list [@@deriving bin_io]
type int64s = int64 array [@@deriving bin_io]
type lists = int32 list list [@@deriving bin_io]
type array_of_options = char option array [@@deriving bin_io]
type option_of_array = bool array option [@@deriving bin_io]
type int_ref = int ref [@@deriving bin_io]
type string_lazy = string lazy_t [@@deriving bin_io]
type table = (int, string) hashtbl [@@deriving bin_io]

let reference d = iso d ( ! ) ref
let later d = iso d Lazy.force Lazy.from_val

let hashtbl key data =
  let to_list t = List.rev (Hashtbl.fold (fun k v l -> (k, v) :: l) t []) in
  let of_list l =
    let t = Hashtbl.create (List.length l) in
    List.iter (fun (k, v) -> Hashtbl.replace t k v) l;
    t
  in
  iso (list (pair key data)) to_list of_list

(* Tuples *)

type two = int * string [@@deriving bin_io]
type three = bool * char * unit [@@deriving bin_io]
type four = int * int32 * int64 * string [@@deriving bin_io]
type nested_tuples = (int * bool) * (char * (string * int64)) [@@deriving bin_io]
type tuples = (int * bool) list [@@deriving bin_io]
type tuple_option = (string * string) option [@@deriving bin_io]

(* Records *)

type person = { name : string; age : int; email : string option } [@@deriving bin_io]
type one_field = { only : int } [@@deriving bin_io]
type unboxed = { inside : int64 } [@@unboxed] [@@deriving bin_io]
type counter = { mutable count : int; step : int32 } [@@deriving bin_io]
type team = { lead : person; others : person list; sizes : int array } [@@deriving bin_io]
type odd_names = { _x : int; list : bool; option' : char; float : int list } [@@deriving bin_io]

let person =
  fields [ "name"; "age"; "email" ] (triple string int (option string))
    (fun { name; age; email } -> name, age, email) (fun (name, age, email) -> { name; age; email })

let one_field = field "only" int (fun { only } -> only) (fun only -> { only })
let unboxed = field "inside" int64 (fun { inside } -> inside) (fun inside -> { inside })
let counter = fields [ "count"; "step" ] (pair int int32) (fun { count; step } -> count, step) (fun (count, step) -> { count; step })

let team =
  fields [ "lead"; "others"; "sizes" ] (triple person (list person) (array int))
    (fun { lead; others; sizes } -> lead, others, sizes) (fun (lead, others, sizes) -> { lead; others; sizes })

let odd_names =
  fields [ "_x"; "list"; "option'"; "float" ] (quadruple int bool char (list int))
    (fun { _x; list; option'; float } -> _x, list, option', float) (fun (_x, list, option', float) -> { _x; list; option'; float })

(* Variants *)

type color = Red | Green | Blue [@@deriving bin_io]
type single = Single of string [@@deriving bin_io]
type unboxed_case = Box of int [@@unboxed] [@@deriving bin_io]

type arguments = None_of_them | One of int | Two of int * bool | Three of char * unit * string | Four of int32 * int64 * int * string
[@@deriving bin_io]

type pairs = Pair of (int * int) | Both of int * int | Lists of int list * (int * string) list [@@deriving bin_io]
type inline = Nobody | Somebody of { name : string; id : int } [@@deriving bin_io]
type ('ok, 'error) result = ('ok, 'error) Stdlib.result = Ok of 'ok | Error of 'error [@@deriving bin_io]
type answer = (int, string) result [@@deriving bin_io]
type 'a tree_of_two = Leaf of 'a | Node of 'a * 'a [@@deriving bin_io]
type forest = person tree_of_two list [@@deriving bin_io]

let color = constants (Sum [ "Red", []; "Green", []; "Blue", [] ]) [ Red; Green; Blue ]

let single =
  sum [ "Single", [ Text ] ]
    (fun (Single s) -> Case (0, [ string.view s ]))
    (function Case (0, [ s ]) -> Single (string.make s) | v -> no v)

let unboxed_case = sum [ "Box", [ Int ] ] (fun (Box n) -> Case (0, [ int.view n ])) (function Case (0, [ n ]) -> Box (int.make n) | v -> no v)

let arguments =
  sum
    [ "None_of_them", []; "One", [ Int ]; "Two", [ Int; Bool ]; "Three", [ Char; Unit; Text ]; "Four", [ Int32; Int64; Int; Text ] ]
    (function
      | None_of_them -> Case (0, [])
      | One a -> Case (1, [ int.view a ])
      | Two (a, b) -> Case (2, [ int.view a; bool.view b ])
      | Three (a, b, c) -> Case (3, [ char.view a; unit.view b; string.view c ])
      | Four (a, b, c, d) -> Case (4, [ int32.view a; int64.view b; int.view c; string.view d ]))
    (function
      | Case (0, []) -> None_of_them
      | Case (1, [ a ]) -> One (int.make a)
      | Case (2, [ a; b ]) -> Two (int.make a, bool.make b)
      | Case (3, [ a; b; c ]) -> Three (char.make a, unit.make b, string.make c)
      | Case (4, [ a; b; c; d ]) -> Four (int32.make a, int64.make b, int.make c, string.make d)
      | v -> no v)

let pairs =
  let p = pair int int and l = list int and m = list (pair int string) in
  sum
    [ "Pair", [ p.shape ]; "Both", [ Int; Int ]; "Lists", [ l.shape; m.shape ] ]
    (function
      | Pair a -> Case (0, [ p.view a ])
      | Both (a, b) -> Case (1, [ int.view a; int.view b ])
      | Lists (a, b) -> Case (2, [ l.view a; m.view b ]))
    (function
      | Case (0, [ a ]) -> Pair (p.make a)
      | Case (1, [ a; b ]) -> Both (int.make a, int.make b)
      | Case (2, [ a; b ]) -> Lists (l.make a, m.make b)
      | v -> no v)

let inline =
  let both = pair string int in
  sum
    [ "Nobody", []; "Somebody", [ Fields [ "name", Text; "id", Int ] ] ]
    (function Nobody -> Case (0, []) | Somebody { name; id } -> Case (1, [ both.view (name, id) ]))
    (function
      | Case (0, []) -> Nobody
      | Case (1, [ v ]) -> let name, id = both.make v in Somebody { name; id }
      | v -> no v)

let result_of ok error =
  sum [ "Ok", [ ok.shape ]; "Error", [ error.shape ] ]
    (function Ok a -> Case (0, [ ok.view a ]) | Error b -> Case (1, [ error.view b ]))
    (function Case (0, [ a ]) -> Ok (ok.make a) | Case (1, [ b ]) -> Error (error.make b) | v -> no v)

let tree_of_two d =
  sum [ "Leaf", [ d.shape ]; "Node", [ d.shape; d.shape ] ]
    (function Leaf a -> Case (0, [ d.view a ]) | Node (a, b) -> Case (1, [ d.view a; d.view b ]))
    (function Case (0, [ a ]) -> Leaf (d.make a) | Case (1, [ a; b ]) -> Node (d.make a, d.make b) | v -> no v)

(* Polymorphic variants *)

type state = [ `On | `Off | `Version ] [@@deriving bin_io]
type found = [ `Ok of string | `Eof ] [@@deriving bin_io]
type poly_pair = [ `Both of int * string | `Neither | `Tuples of (int * int) list ] [@@deriving bin_io]
type more = [ state | `Found of found ] [@@deriving bin_io]

let state : state Desc.t = constants (Poly [ "On", None; "Off", None; "Version", None ]) [ `On; `Off; `Version ]

let found : found Desc.t =
  poly [ "Ok", Some Text; "Eof", None ]
    (function `Ok s -> Case (0, [ string.view s ]) | `Eof -> Case (1, []))
    (function Case (0, [ s ]) -> `Ok (string.make s) | Case (1, []) -> `Eof | v -> no v)

let poly_pair : poly_pair Desc.t =
  let p = pair int string and l = list (pair int int) in
  poly [ "Both", Some p.shape; "Neither", None; "Tuples", Some l.shape ]
    (function `Both a -> Case (0, [ p.view a ]) | `Neither -> Case (1, []) | `Tuples l' -> Case (2, [ l.view l' ]))
    (function Case (0, [ a ]) -> `Both (p.make a) | Case (1, []) -> `Neither | Case (2, [ a ]) -> `Tuples (l.make a) | v -> no v)

let more : more Desc.t =
  poly [ "On", None; "Off", None; "Version", None; "Found", Some found.shape ]
    (function #state as s -> state.view s | `Found f -> Case (3, [ found.view f ]))
    (function Case (3, [ f ]) -> `Found (found.make f) | v -> (state.make v :> more))

(* Nested *)

type deep =
  { on : more option
  ; rows : (int * color * [ `A of person list | `B of sexp ]) list array
  ; last : ((string option list, int) answer_of * unit) option
  }

and ('a, 'b) answer_of = Good of 'a | Bad of { why : 'b } [@@deriving bin_io]

let deep =
  let ab =
    poly [ "A", Some (list person).shape; "B", Some Sexp ]
      (function `A l -> Case (0, [ (list person).view l ]) | `B s -> Case (1, [ sexp.view s ]))
      (function Case (0, [ l ]) -> `A ((list person).make l) | Case (1, [ s ]) -> `B (sexp.make s) | v -> no v)
  in
  let answer_of good bad =
    sum [ "Good", [ good.shape ]; "Bad", [ Fields [ "why", bad.shape ] ] ]
      (function Good a -> Case (0, [ good.view a ]) | Bad { why } -> Case (1, [ Parts [ bad.view why ] ]))
      (function Case (0, [ a ]) -> Good (good.make a) | Case (1, [ Parts [ b ] ]) -> Bad { why = bad.make b } | v -> no v)
  in
  fields [ "on"; "rows"; "last" ]
    (triple (option more) (array (list (triple int color ab))) (option (pair (answer_of (list (option string)) int) unit)))
    (fun { on; rows; last } -> on, rows, last) (fun (on, rows, last) -> { on; rows; last })

(* A float has no shape as a number. Its eight bytes can pass as eight chars, the lowest first. *)

type t_float = float [@@deriving bin_io]
type floats = float array [@@deriving bin_io]

let float =
  let view f = Parts (List.init 8 (fun i -> Byte (Char.chr (Int64.to_int (Int64.shift_right_logical (Int64.bits_of_float f) (8 * i)) land 255)))) in
  let make = function
    | Parts l -> Int64.float_of_bits (List.fold_right (fun c n -> Int64.logor (Int64.shift_left n 8) (Int64.of_int (Char.code (char.make c)))) l 0L)
    | v -> no v
  in
  { shape = Tuple (List.init 8 (fun _ -> Char)); view; make }

(* No shape can be recursive. *)
type expression = Constant of int | Sum of expression * expression [@@deriving bin_io]

(* What changes no byte: attributes of other derivations, annotations, functors, private types *)

open Sexplib0.Sexp_conv

type with_attributes = { kept : int [@default 3]; maybe : string option [@sexp.option]; some : int list [@sexp.list] } [@@deriving bin_io, sexp]
type annotated = (int * string) [@@deriving bin_shape ~annotate:"annotated", bin_write, bin_read, bin_type_class]

module Pair_of (T : sig type t [@@deriving bin_io] end) = struct
  type t = { first : T.t; second : T.t } [@@deriving bin_io]
end

module State = struct
  type t = state [@@deriving bin_io]
end

module States = Pair_of (State)

module Secret : sig
  type t = private int [@@deriving bin_io]

  val of_int : int -> t
end = struct
  type t = int [@@deriving bin_io]

  let of_int = Fun.id
end

let with_attributes =
  fields [ "kept"; "maybe"; "some" ] (triple int (option string) (list int))
    (fun { kept; maybe; some } -> kept, maybe, some) (fun (kept, maybe, some) -> { kept; maybe; some })

let states =
  fields [ "first"; "second" ] (pair state state)
    (fun { States.first; second } -> first, second) (fun (first, second) -> { States.first; second })

let secret = iso int (fun (n : Secret.t) -> (n :> int)) Secret.of_int

(* Types with a `bin_io` of their own, made by functors of the library. *)

module Name = struct
  type t = { letters : string list }

  include Bin_prot.Utils.Make_binable_with_uuid (struct
      module Binable = struct
        type t = string [@@deriving bin_io]
      end

      type nonrec t = t

      let to_binable t = String.concat "" t.letters
      let of_binable s = { letters = [ s ] }
      let caller_identity = Bin_prot.Shape.Uuid.of_string "name"
    end)
end

let name : Name.t Desc.t = iso string (fun { Name.letters } -> String.concat "" letters) (fun s -> { Name.letters = [ s ] })

module Numbers = struct
  module T = Set.Make (Int)

  include Bin_prot.Utils.Make_iterable_binable (struct
      type t = T.t
      type el = int [@@deriving bin_io]

      let caller_identity = Bin_prot.Shape.Uuid.of_string "numbers"
      let module_name = Some "Numbers"
      let length = T.cardinal
      let iter t ~f = T.iter f t
      let init ~len ~next = T.of_list (List.init len (fun _ -> next ()))
    end)
end

let numbers = iso (list int) Numbers.T.elements Numbers.T.of_list
