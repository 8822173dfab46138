(* What the library and `rpc` say of bytes, and where the two are the same answer. Each pair that is neither the same nor listed in
   docs/FORMATS.md, "Differences from the OCaml library", is a failure. *)

module Error = Bin_prot.Common.ReadError

type library =
  | Read of { text : string; taken : int; depth : int (* of its S-expressions *) }
  | Short
  | Refused of Error.t * int
  | No_room

type ours =
  | Shown of string * int
  | Cut of int
  | Trailing of int
  | Faulty of int * string
  | Other of string

(* The error without the place of the type in its file. *)
let name (error : Error.t) =
  match error with
  | Sum_tag _ -> "Sum_tag"
  | Variant _ -> "Variant"
  | Variant_wrong_type _ -> "Variant_wrong_type"
  | error -> Error.to_string error

let library_text = function
  | Read r -> Printf.sprintf "read, %d bytes" r.taken
  | Short -> "Buffer_short"
  | Refused (error, at) -> Printf.sprintf "%s at %d" (name error) at
  | No_room -> "Out_of_memory"

let ours_text = function
  | Shown (_, taken) -> Printf.sprintf "read, %d bytes" taken
  | Cut at -> Printf.sprintf "cut at %d" at
  | Trailing at -> Printf.sprintf "trailing at %d" at
  | Faulty (at, why) -> Printf.sprintf "refused at %d: %s" at why
  | Other text -> text

(* What `rpc show` wrote. *)
let ours_of status out =
  let scan form f = try Some (Scanf.sscanf out form f) with Scanf.Scan_failure _ | Failure _ | End_of_file -> None in
  let first l = Option.value (List.find_map (fun f -> f ()) l) ~default:(Other (Printf.sprintf "status %d: %s" status out)) in
  if status = 0
  then (
    match String.rindex_from_opt out (String.length out - 2) '\n' with
    | Some k -> Shown (String.sub out 0 k, Scanf.sscanf (String.sub out (k + 1) (String.length out - k - 1)) "%d bytes\n%!" Fun.id)
    | None -> Other out)
  else if status = 1
  then
    first
      [ (fun () -> scan "refused at %d: %s@\n%!" (fun at why -> Faulty (at, why)))
      ; (fun () -> scan "cut at %d\n%!" (fun at -> Cut at))
      ; (fun () -> scan "trailing at %d\n%!" (fun at -> Trailing at))
      ]
  else first []

(* The limit of each length in `rpc show`. *)
let limit = 104857600L

let low bytes start upto =
  let n = ref 0L in
  for i = upto downto start do n := Int64.logor (Int64.shift_left !n 8) (Int64.of_int (Char.code bytes.[i])) done;
  !n

(* Whether a length begins at some place, the first of the given ones, and the byte at k is the first to make it pass the limit. *)
let passes_limit bytes ~from k =
  let over start upto = Int64.unsigned_compare (low bytes start upto) limit > 0 in
  let from_code start =
    let width = match bytes.[start] with '\xFE' -> 2 | '\xFD' -> 4 | '\xFC' -> 8 | _ -> 0 in
    k > start && k <= start + width && over (start + 1) k && not (over (start + 1) (k - 1))
  in
  k < String.length bytes && List.exists from_code (List.filter (fun s -> s >= 0) from)

let any_start k = List.init 8 (fun i -> k - 8 + i)

(* Whether a tag begins at the start, and the byte at k is the first with which it begins none of one polymorphic variant's. *)
let leaves_tags bytes shape ~start k =
  let begins upto tag = upto < String.length bytes && String.sub bytes start (upto + 1 - start) = String.sub tag 0 (upto + 1 - start) in
  let leaves tags = (not (List.exists (begins k) tags)) && (k = start || List.exists (begins (k - 1)) tags) in
  0 <= start && start <= k && k < start + 4 && List.exists leaves (Spell.tags shape)

(* The name of a listed difference, or "" where both say the same. *)
let difference shape bytes library ours =
  let length = String.length bytes in
  let is_tag start at = leaves_tags bytes shape ~start at in
  let same stands = if stands then Some "" else None in
  let listed name stands = if stands then Some name else None in
  match library, ours with
  | Read r, Faulty (_, "length") when r.depth > 128 -> Some "an S-expression that is more than 128 deep"
  | Read r, Shown (text, taken) -> same (r.taken = length && taken = length && r.text = text && r.depth <= 128)
  | Read r, Trailing at -> listed "bytes after the value, which the library leaves to its caller" (at = r.taken && at < length)
  | Short, Cut at -> same (at = length)
  | Short, Faulty (at, "tag") -> listed "a tag that is cut and begins none of the shape's" (at > length - 4)
  | Refused ((Nat0_overflow | String_too_long | Array_too_long), p), Faulty (at, "length") ->
    listed "the place of a refusal" (passes_limit bytes ~from:[ p ] at)
  | (Short | Refused _ | No_room), Faulty (at, "length") when passes_limit bytes ~from:(any_start at) at -> Some "a length above the limit"
  | No_room, (Cut _ | Faulty _) -> Some "room for an array's items before they are there"
  | Refused ((Int_code | Int32_code | Int64_code | Nativeint_code | Nat0_code), p), Faulty (at, "code") -> same (at = p)
  | Refused ((Unit_code | Bool_code | Option_code), p), Faulty (at, "byte") -> same (at = p)
  | Refused (Neg_int8, p), Faulty (at, "sign") -> listed "the place of a refusal" (at = p + 1)
  | Refused (Int_overflow, p), Faulty (at, "range") -> listed "the place of a refusal" (at = p + 8)
  | Refused (Sum_tag _, p), Faulty (at, "case") -> listed "the place of a refusal" (at = p - 1)
  | Refused (Variant_tag, p), Faulty (at, "tag") -> listed "the place of a refusal" (is_tag p at)
  | Refused ((Variant _ | Variant_wrong_type _), p), Faulty (at, "tag") -> listed "the place of a refusal" (is_tag (p - 4) at)
  | _ -> None
