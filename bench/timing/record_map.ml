(* The same map as examples/c/record_map.c: OCaml's own; a thread is a process of its own.

     record_map [THREADS [EVERY [ROUNDS [SIZE]]]] *)

module Versions = Map.Make (Int)

let stay = 4
let next_key key = ((key * 1103515245) + 12345) land 0x7fffffff
let nanoseconds () = int_of_float (Unix.gettimeofday () *. 1e9)

type work = { published : int; adding : int; finding : int }

let works versions sum round size every =
  let from = nanoseconds () and first = (round * 7919) + 1 in
  let last = ref Versions.empty and key = ref first and published = ref sum.published in
  for i = 0 to size - 1 do
    last := Versions.add !key i !last;
    if i mod every = every - 1 then begin
      versions.(!published mod stay) <- !last;
      incr published
    end;
    key := next_key !key
  done;
  let between = nanoseconds () in
  key := first;
  for i = 0 to size - 1 do
    if Versions.find !key !last <> i then failwith "a key is lost";
    key := next_key !key
  done;
  { published = !published;
    adding = sum.adding + between - from;
    finding = sum.finding + nanoseconds () - between }

let rounds_of number threads rounds size every =
  let versions = Array.make stay Versions.empty in
  let rec go round sum =
    if round >= rounds then sum
    else go (round + threads) (works versions sum round size every)
  in
  let sum = go number { published = 0; adding = 0; finding = 0 } in
  ignore (Sys.opaque_identity versions);
  sum

let most_memory () =
  let file = open_in "/proc/self/status" in
  let rec find () =
    match Scanf.sscanf (input_line file) "VmHWM: %d" (fun most -> most / 1024) with
    | most -> most
    | exception Scanf.Scan_failure _ -> find ()
  in
  let most = find () in
  close_in file;
  most

let argument i otherwise =
  if Array.length Sys.argv > i then int_of_string Sys.argv.(i) else otherwise

let () =
  let threads = argument 1 1 and every = argument 2 10000 in
  let rounds = argument 3 8 and size = argument 4 100000 in
  let starts number =
    let get, put = Unix.pipe () in
    match Unix.fork () with
    | 0 ->
      let out = Unix.out_channel_of_descr put in
      output_value out (rounds_of number threads rounds size every);
      close_out out;
      Printf.eprintf "memory %d MB\n%!" (most_memory ());
      Unix._exit 0
    | child ->
      Unix.close put;
      (child, Unix.in_channel_of_descr get)
  in
  let others = List.init (threads - 1) (fun i -> starts (i + 1)) in
  let first = rounds_of 0 threads rounds size every in
  let ends sum (child, get) =
    let one : work = input_value get in
    close_in get;
    ignore (Unix.waitpid [] child);
    { published = sum.published + one.published;
      adding = sum.adding + one.adding;
      finding = sum.finding + one.finding }
  in
  let all = List.fold_left ends first others and done_ = rounds * size in
  Printf.printf "%d rounds of %d insertions and look-ups, %d versions published\n" rounds size
    all.published;
  Printf.eprintf "memory %d MB\nan insertion %d ns, a look-up %d ns\n" (most_memory ())
    (all.adding / done_) (all.finding / done_)
