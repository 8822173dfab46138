(* The preprocessor: the drivers of ppx_bin_prot and ppx_sexp_conv, which are linked with this file. *)
let () = Ppxlib.Driver.standalone ()
