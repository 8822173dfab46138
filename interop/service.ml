(* The types of a small service, as its OCaml program has them, and the schema that they give. *)

open Bin_prot.Std
open Sexplib0.Sexp_conv

type ('ok, 'error) result = ('ok, 'error) Stdlib.result = Ok of 'ok | Error of 'error [@@deriving bin_io]

module Person = struct
  type t = { name : string; age : int; email : string option } [@@deriving bin_io, sexp]
end

module Fault = struct
  type t = Unknown of string | Denied [@@deriving bin_io, sexp]
end

(* One answer: Rpc.Rpc.create ~name:"find" ~version:1 ~bin_query ~bin_response *)
module Find = struct
  type query = string [@@deriving bin_io]
  type response = (Person.t, Fault.t) result [@@deriving bin_io]
end

(* No answer: Rpc.One_way.create ~name:"log" ~version:1 ~bin_msg *)
module Log = struct
  type msg = { level : [ `Info | `Error ]; text : string } [@@deriving bin_io]
end

(* Many answers: Rpc.Pipe_rpc.create ~name:"each" ~version:1 ~bin_query ~bin_response ~bin_error () *)
module Each = struct
  type query = { prefix : string; most : int option } [@@deriving bin_io]
  type response = Person.t [@@deriving bin_io]
  type error = Fault.t [@@deriving bin_io]
end

(* A state and its changes: Rpc.State_rpc.create ~name:"book" ~version:1 ~bin_query ~bin_state ~bin_update ~bin_error () *)
module Book = struct
  type query = unit [@@deriving bin_io]
  type state = Person.t list [@@deriving bin_io]
  type update = [ `Added of Person.t | `Removed of string ] [@@deriving bin_io]
  type error = Fault.t [@@deriving bin_io]
end

(* The line of each procedure in a schema. *)
let schema () =
  let text s =
    match Shape_of.text s with
    | Ok text -> text
    | Error why -> failwith why
  in
  [ Printf.sprintf "plain find 1 both = %s -> %s" (text Find.bin_shape_query) (text Find.bin_shape_response)
  ; Printf.sprintf "oneway log 1 both = %s" (text Log.bin_shape_msg)
  ; Printf.sprintf "pipe each 1 both = %s -> %s ! %s" (text Each.bin_shape_query) (text Each.bin_shape_response) (text Each.bin_shape_error)
  ; Printf.sprintf "state book 1 both = %s -> %s, %s ! %s" (text Book.bin_shape_query) (text Book.bin_shape_state)
      (text Book.bin_shape_update) (text Book.bin_shape_error)
  ]
