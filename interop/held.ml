(* Every type that is held against `rpc`. *)

type t =
  | Held :
      { name : string
      ; desc : 'a Desc.t
      ; bin : 'a Bin_prot.Type_class.t
      ; ordered : bool (* whether a value that is read has its items in the order of the bytes *)
      ; described : bool (* whether the library's description of the type has a shape *)
      }
      -> t

let held name desc bin = Held { name; desc; bin; ordered = true; described = true }
let unordered name desc bin = Held { name; desc; bin; ordered = false; described = true }
let custom name desc bin = Held { name; desc; bin; ordered = false; described = false }
let opaque name desc bin = Held { name; desc; bin; ordered = true; described = false }

open Desc
open Types
open Messages

let plain =
  [ held "unit" unit bin_t_unit
  ; held "bool" bool bin_t_bool
  ; held "char" char bin_t_char
  ; held "int" int bin_t_int
  ; held "int32" int32 bin_t_int32
  ; held "int64" int64 bin_t_int64
  ; held "nativeint" nativeint bin_t_nativeint
  ; held "string" string bin_t_string
  ; held "bytes" bytes bin_t_bytes
  ; held "bigstring" bigstring bin_t_bigstring
  ; held "sexp" sexp bin_sexp
  ; opaque "float" float bin_t_float
  ]

let holders =
  [ held "int option" (option int) bin_int_option
  ; held "string option option" (option (option string)) bin_option_option
  ; held "string list" (list string) bin_strings
  ; held "unit list" (list unit) bin_units
  ; held "int list" (list int) bin_ints
  ; held "int64 array" (array int64) bin_int64s
  ; held "int32 list list" (list (list int32)) bin_lists
  ; held "char option array" (array (option char)) bin_array_of_options
  ; held "bool array option" (option (array bool)) bin_option_of_array
  ; held "int ref" (reference int) bin_int_ref
  ; held "string lazy_t" (later string) bin_string_lazy
  ; unordered "(int, string) Hashtbl.t" (hashtbl int string) bin_table
  ; opaque "float array" (array float) bin_floats
  ; held "a pair" (pair int string) bin_two
  ; held "a triple" (triple bool char unit) bin_three
  ; held "a quadruple" (quadruple int int32 int64 string) bin_four
  ; held "nested tuples" (pair (pair int bool) (pair char (pair string int64))) bin_nested_tuples
  ; held "a list of tuples" (list (pair int bool)) bin_tuples
  ; held "an option of a tuple" (option (pair string string)) bin_tuple_option
  ]

let own =
  [ held "a record" person bin_person
  ; held "a record of one field" one_field bin_one_field
  ; held "an unboxed record" unboxed bin_unboxed
  ; held "a record with a mutable field" counter bin_counter
  ; held "a record of records" team bin_team
  ; held "a record with odd names" odd_names bin_odd_names
  ; held "a variant of constants" color bin_color
  ; held "a variant of one case" single bin_single
  ; held "an unboxed variant" unboxed_case bin_unboxed_case
  ; held "a variant with 0 to 4 arguments" arguments bin_arguments
  ; held "a tuple or two arguments" pairs bin_pairs
  ; held "an inline record" inline bin_inline
  ; held "a result" (result_of int string) bin_answer
  ; held "a type with a parameter" (list (tree_of_two person)) bin_forest
  ; held "a variant of 200 cases" Wide.t200 Wide.bin_t200
  ; held "a variant of 256 cases" Wide.t256 Wide.bin_t256
  ; held "a polymorphic variant" state bin_state
  ; held "one with an argument" found bin_found
  ; held "one with tuples" poly_pair bin_poly_pair
  ; held "one that includes another" more bin_more
  ; held "nested types" deep bin_deep
  ; held "a record with attributes" with_attributes bin_with_attributes
  ; held "an annotated type" (pair int string) bin_annotated
  ; held "a functor's type" states States.bin_t
  ; held "a private type" secret Secret.bin_t
  ; held "a type by way of another" name Name.bin_t
  ; custom "a set, by its elements" numbers Numbers.bin_t
  ]

let messages =
  [ held "Async_rpc: header" (list int) bin_header
  ; held "Async_rpc: error" rpc_error bin_rpc_error
  ; held "Async_rpc: message" (message string) bin_string_message
  ; held "Async_rpc: query of a stream" stream_query bin_string_stream_query
  ; held "Async_rpc: first answer of a pipe" (stream_first unit string) bin_pipe_first
  ; held "Async_rpc: first answer of a state" (stream_first (list person) sexp) bin_state_first
  ; held "Async_rpc: later answer of a stream" found bin_string_stream_data
  ; held "Async_rpc: menu" menu bin_menu
  ]

let all = plain @ holders @ own @ messages

(* Of so many cases, the random values of each type and its damaged spellings. *)
let counts cases =
  let types = List.length all in
  let values = (cases + types - 1) / types in
  values, max 5 (values / 30)
