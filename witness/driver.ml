(* driver < LIST: of each line, an argument's pattern and the pattern that its quantile must have, whether it comes out; the differing ones,
   and how many lines there were. *)
open Quantile

let rec positive_of n =
  if n = 1L then XH
  else
    let rest = positive_of (Int64.shift_right_logical n 1) in
    if Int64.logand n 1L = 1L then XI rest else XO rest

let z_of n = if n = 0L then Z0 else Zpos (positive_of n)

let rec of_positive = function
  | XH -> 1L
  | XO p -> Int64.shift_left (of_positive p) 1
  | XI p -> Int64.logor 1L (Int64.shift_left (of_positive p) 1)

let of_z = function Z0 -> 0L | Zpos p -> of_positive p | Zneg p -> Int64.neg (of_positive p)

let () =
  let lines = ref 0 and differ = ref 0 in
  (try
     while true do
       Scanf.sscanf (input_line stdin) "%s %s" (fun x said ->
           let got = Printf.sprintf "%016Lx" (of_z (quantileOf (z_of (Int64.of_string ("0x" ^ x))))) in
           incr lines;
           if got <> said then (incr differ; Printf.printf "%s gives %s, and %s stands\n" x got said))
     done
   with End_of_file -> ());
  Printf.printf "the Rust's quantiles: %d compared, %d differ\n" !lines !differ;
  exit (if !differ = 0 && !lines > 0 then 0 else 1)
