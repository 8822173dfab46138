(* Runs of the program `rpc`. *)

type t =
  { program : string
  ; folder : string (* for its input and output *)
  ; mutable runs : int
  }

let create program folder = { program; folder; runs = 0 }

let with_file name open_it close f =
  let file = open_it name in
  Fun.protect ~finally:(fun () -> close file) (fun () -> f file)

let put name text = with_file name open_out_bin close_out (fun out -> output_string out text)
let get name = with_file name open_in_bin close_in (fun from -> really_input_string from (in_channel_length from))

(* The status and what was written to standard output. *)
let run t words input =
  let file name = Filename.concat t.folder name in
  put (file "input") input;
  let from = Unix.openfile (file "input") [ O_RDONLY ] 0 in
  let out = Unix.openfile (file "output") [ O_WRONLY; O_CREAT; O_TRUNC ] 0o600 in
  let id = Unix.create_process t.program (Array.of_list (t.program :: words)) from out Unix.stderr in
  Unix.close from;
  Unix.close out;
  t.runs <- t.runs + 1;
  match snd (Unix.waitpid [] id) with
  | WEXITED status -> status, get (file "output")
  | WSIGNALED signal | WSTOPPED signal -> 1000 + abs signal, get (file "output")

let pairs = Array.init 256 (Printf.sprintf "%02x")

let hex bytes =
  let out = Buffer.create (2 * String.length bytes) in
  String.iter (fun c -> Buffer.add_string out pairs.(Char.code c)) bytes;
  Buffer.contents out

let bytes hex =
  let hex = String.concat "" (String.split_on_char ' ' hex) in
  String.init (String.length hex / 2) (fun i -> Char.chr (int_of_string ("0x" ^ String.sub hex (2 * i) 2)))

let show t shape bytes = run t [ "show"; shape ] (hex bytes ^ "\n")
let write t shape text = run t [ "write"; shape ] (text ^ "\n")
