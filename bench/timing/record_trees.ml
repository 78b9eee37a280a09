(* The same trees as examples/c/record_trees.c, in OCaml; a thread is a process of its own.

     record_trees [THREADS [DEPTH]] *)

type tree = Leaf | Node of tree * tree

let shortest = 4
let size_of depth = (2 lsl depth) - 1

(* A node without children is made too. *)
let rec grow depth =
  if depth = 0 then Sys.opaque_identity (Node (Sys.opaque_identity Leaf, Leaf))
  else
    let left = grow (depth - 1) in
    Node (left, grow (depth - 1))

let rec count = function Leaf -> 0 | Node (l, r) -> 1 + count l + count r

(* A thread's part of the trees that die young, and how many nodes it made. *)
let makes_trees number threads depth =
  let made = ref 0 and d = ref shortest in
  while !d <= depth - 2 do
    let rounds = 2 * (2 * size_of depth / size_of !d) and i = ref number in
    while !i < rounds do
      ignore (Sys.opaque_identity (grow !d));
      made := !made + size_of !d;
      i := !i + threads
    done;
    d := !d + 2
  done;
  !made

let most_memory () =
  let file = open_in "/proc/self/status" in
  let rec find () =
    match Scanf.sscanf (input_line file) "VmHWM: %d" (fun most -> most / 1024) with
    | most -> most
    | exception Scanf.Scan_failure _ -> find ()
  in
  let most = find () in
  close_in file;
  most

let argument i otherwise =
  if Array.length Sys.argv > i then int_of_string Sys.argv.(i) else otherwise

(* What the work of each number gives, the first one done here and the others in processes. *)
let in_processes threads work =
  let starts number =
    let get, put = Unix.pipe () in
    match Unix.fork () with
    | 0 ->
      let out = Unix.out_channel_of_descr put in
      output_value out (work number : int);
      close_out out;
      Printf.eprintf "memory %d MB\n%!" (most_memory ());
      Unix._exit 0
    | child ->
      Unix.close put;
      (child, Unix.in_channel_of_descr get)
  in
  let others = List.init (threads - 1) (fun i -> starts (i + 1)) in
  let first = work 0 in
  let ends sum (child, get) =
    let one : int = input_value get in
    close_in get;
    ignore (Unix.waitpid [] child);
    sum + one
  in
  List.fold_left ends first others

let () =
  let threads = argument 1 1 and depth = argument 2 18 in
  ignore (Sys.opaque_identity (grow depth));
  let stays = grow (depth - 2) in
  let young = in_processes threads (fun number -> makes_trees number threads depth) in
  let made = size_of depth + size_of (depth - 2) + young in
  Printf.printf "%d nodes made; the tree that stays has %d\n" made (count stays);
  Printf.eprintf "memory %d MB\n" (most_memory ())
