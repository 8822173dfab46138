(* The messages of Async_rpc's protocol version 1, written as OCaml types after `protocol.ml` of Async_rpc_kernel. That library is
   not packaged, so the types are ours and only their bytes are those of the real bin_prot. *)

open Shape
open Bin_prot.Std
open Desc
open Types

type header = int list [@@deriving bin_io]

type rpc_error =
  | Bin_io_exn of sexp
  | Connection_closed
  | Write_error of sexp
  | Uncaught_exn of sexp
  | Unimplemented_rpc of string * [ `Version of int ]
  | Unknown_query_id of int
[@@deriving bin_io]

type 'data query = { tag : string; version : int; id : int; data : 'data } [@@deriving bin_io]
type 'data response = { id : int; data : ('data, rpc_error) result } [@@deriving bin_io]
type 'data message = Heartbeat | Query of 'data query | Response of 'data response [@@deriving bin_io]
type 'data stream_query = [ `Query of 'data | `Abort ] [@@deriving bin_io]
type ('first, 'error) stream_first = { unused_query_id : int; initial : ('first, 'error) result } [@@deriving bin_io]
type 'data stream_data = [ `Ok of 'data | `Eof ] [@@deriving bin_io]
type menu = (string * int) list [@@deriving bin_io]

(* Data stands behind its length, as a string does. *)
type string_message = string message [@@deriving bin_io]
type string_stream_query = string stream_query [@@deriving bin_io]
type pipe_first = (unit, string) stream_first [@@deriving bin_io]
type state_first = (person list, sexp) stream_first [@@deriving bin_io]
type string_stream_data = string stream_data [@@deriving bin_io]

let version : [ `Version of int ] Desc.t =
  poly [ "Version", Some Int ]
    (fun (`Version n) -> Case (0, [ int.view n ]))
    (function Case (0, [ n ]) -> `Version (int.make n) | v -> no v)

let rpc_error =
  sum
    [ "Bin_io_exn", [ Sexp ]; "Connection_closed", []; "Write_error", [ Sexp ]; "Uncaught_exn", [ Sexp ]
    ; "Unimplemented_rpc", [ Text; version.shape ]; "Unknown_query_id", [ Int ] ]
    (function
      | Bin_io_exn s -> Case (0, [ sexp.view s ])
      | Connection_closed -> Case (1, [])
      | Write_error s -> Case (2, [ sexp.view s ])
      | Uncaught_exn s -> Case (3, [ sexp.view s ])
      | Unimplemented_rpc (tag, v) -> Case (4, [ string.view tag; version.view v ])
      | Unknown_query_id n -> Case (5, [ int.view n ]))
    (function
      | Case (0, [ s ]) -> Bin_io_exn (sexp.make s)
      | Case (1, []) -> Connection_closed
      | Case (2, [ s ]) -> Write_error (sexp.make s)
      | Case (3, [ s ]) -> Uncaught_exn (sexp.make s)
      | Case (4, [ tag; v ]) -> Unimplemented_rpc (string.make tag, version.make v)
      | Case (5, [ n ]) -> Unknown_query_id (int.make n)
      | v -> no v)

let query data =
  fields [ "tag"; "version"; "id"; "data" ] (quadruple string int int data)
    (fun { tag; version; id; data } -> tag, version, id, data) (fun (tag, version, id, data) -> { tag; version; id; data })

let response data =
  fields [ "id"; "data" ] (pair int (result_of data rpc_error)) (fun { id; data } -> id, data) (fun (id, data) -> { id; data })

let message data =
  let query = query data and response = response data in
  sum [ "Heartbeat", []; "Query", [ query.shape ]; "Response", [ response.shape ] ]
    (function Heartbeat -> Case (0, []) | Query q -> Case (1, [ query.view q ]) | Response r -> Case (2, [ response.view r ]))
    (function
      | Case (0, []) -> Heartbeat
      | Case (1, [ q ]) -> Query (query.make q)
      | Case (2, [ r ]) -> Response (response.make r)
      | v -> no v)

let stream_query : string stream_query Desc.t =
  poly [ "Query", Some Text; "Abort", None ]
    (function `Query s -> Case (0, [ string.view s ]) | `Abort -> Case (1, []))
    (function Case (0, [ s ]) -> `Query (string.make s) | Case (1, []) -> `Abort | v -> no v)

let stream_first first error =
  fields [ "unused_query_id"; "initial" ] (pair int (result_of first error))
    (fun { unused_query_id; initial } -> unused_query_id, initial) (fun (unused_query_id, initial) -> { unused_query_id; initial })

let menu = list (pair string int)
