(* Reads what a type reaches into declarations. *)

open Types
open Declarations
open Implementations

(* {1 Reading type expressions} *)

let reach reader way path =
  if not (Path.Set.mem path reader.known) then begin
    reader.known <- Path.Set.add path reader.known;
    Queue.add (path, text_of_path reader path :: way) reader.waiting
  end

let variables_of parameters = List.map (fun name -> Variable name) parameters

let name_of_enclosing reader enclosing =
  match enclosing.own_name with
  | Some path -> path
  | None ->
      let path = Path.Pident (Ident.create_local "row") in
      enclosing.own_name <- Some path;
      reader.known <- Path.Set.add path reader.known;
      path

(* The declaration of a type that holds itself. *)
let declare_enclosing reader scope path expression =
  reader.texts <- Path.Map.add path (scope.owner ^ "_row") reader.texts;
  let declaration =
    { path; parameters = scope.parameters; body = Abbreviation expression; origin = Shown; reached = scope.way }
  in
  reader.declarations <- declaration :: reader.declarations

(* OCaml lays out a tuple with labels as the one without. *)
let unlabeled parts = List.map snd (Compat.labeled_parts parts)

let is_variable ty = match Compat.shape ty with Tvar _ -> true | _ -> false

let rec are_distinct = function
  | [] -> true
  | ty :: others -> (not (List.exists (Compat.same ty) others)) && are_distinct others

(* The names of parameters, where these are distinct variables. *)
let name_variables types parameters =
  if List.for_all is_variable types && are_distinct types && List.compare_lengths types parameters = 0 then
    Some (List.combine types parameters)
  else None

(* {1 Generalized types (GADTs)} *)

(* Whether the result of a constructor is not the type at distinct variables. *)
let is_generalized declaration =
  let is_general { cd_res; _ } =
    match Option.map Compat.shape cd_res with
    | Some (Tconstr (_, arguments, _)) -> not (List.for_all is_variable arguments && are_distinct arguments)
    | Some _ | None -> false
  in
  match declaration.type_kind with
  | Type_variant (constructors, _) -> List.exists is_general constructors
  | _ -> false

let has_constraint { type_params; _ } = not (List.for_all is_variable type_params && are_distinct type_params)

(* A type at an index that a type is, after its abbreviations: its path and its index. *)
let rec as_generalized reader ty =
  match Compat.shape ty with
  | Tconstr (path, arguments, _) when predeclared (canonical reader path) = None -> (
      let path = canonical reader path in
      let has_index declaration =
        is_generalized declaration || has_constraint declaration || Path.Set.mem path reader.giving
      in
      let own declaration = if has_index declaration then Some (path, arguments) else None in
      match find_declaration reader path with
      | None -> None
      | Some ((Shown | Hidden), ({ type_manifest = Some manifest; type_params; _ } as declaration)) -> (
          match as_generalized reader (Ctype.apply reader.environment type_params manifest arguments) with
          | None -> own declaration
          | found -> found)
      | Some (_, declaration) -> own declaration)
  | _ -> None

(* The type by the paths that `canonical` gives, its abbreviations expanded where they show or a `.cmt` has them. A
   private one is another type than what it abbreviates. *)
let rec plain ?(expanded = []) reader ty =
  match Compat.shape ty with
  | Tconstr (path, arguments, _) -> (
      let path = canonical reader path in
      let arguments = List.map (plain ~expanded reader) arguments in
      let at path = Btype.newgenty (Tconstr (path, arguments, ref Mnil)) in
      match find_declaration reader path with
      | Some ((Shown | Hidden), { type_manifest = Some manifest; type_private = Public; type_params; _ })
        when not (List.exists (Path.same path) expanded) ->
          let ty = Ctype.apply reader.environment type_params manifest arguments in
          plain ~expanded:(path :: expanded) reader ty
      | Some (Hidden, _) -> at (Option.value (path_inside reader path) ~default:path)
      | _ -> at path)
  | Ttuple parts ->
      let plain_part (label, part) = (label, plain ~expanded reader part) in
      Btype.newgenty (Compat.tuple (List.map plain_part (Compat.labeled_parts parts)))
  | _ -> ty

let largest_index = 30

(* The report on an index that is none. *)
let index_fault index =
  let exception Found of string in
  let parts = ref 0 in
  let rec visit ty =
    incr parts;
    if !parts > largest_index then
      raise (Found (Printf.sprintf "a generalized type (GADT) at an index of more than %d parts" largest_index));
    match Compat.shape ty with
    | Tvar _ -> raise (Found "a generalized type (GADT) at an existential index")
    | Tunivar _ -> raise (Found "a generalized type (GADT) at an index of a polymorphic field")
    | _ -> Compat.iter_parts visit ty
  in
  match List.iter visit index with () -> None | exception Found what -> Some what

let rec text_of_type reader ty =
  let text = text_of_type reader in
  match Compat.shape ty with
  | Tconstr (path, arguments, _) -> text_of_index reader arguments ^ text_of_path reader (path_outside reader path)
  | Ttuple parts ->
      let text_of_part (label, part) = Option.fold ~none:"" ~some:(fun label -> label ^ ":") label ^ text part in
      "(" ^ String.concat " * " (List.map text_of_part (Compat.labeled_parts parts)) ^ ")"
  | _ -> Library.one_line (Format.asprintf "%a" Printtyp.type_expr ty)

and text_of_index reader = function
  | [] -> ""
  | [ ty ] -> text_of_type reader ty ^ " "
  | index -> "(" ^ String.concat ", " (List.map (text_of_type reader) index) ^ ") "

(* The type at an index, or at any one. *)
let reach_instance reader scope path index =
  let is_same other =
    match (other, index) with
    | Some other, Some index -> Ctype.is_equal reader.environment false other index
    | None, None -> true
    | Some _, None | None, Some _ -> false
  in
  let is_it instance = Path.same instance.generalized path && is_same instance.index in
  let own_path =
    match List.find_opt is_it reader.instances with
    | Some { own_path; _ } -> own_path
    | None ->
        let own_path = Path.Pident (Ident.create_local "index") in
        let index_text =
          match index with Some types -> String.trim (text_of_index reader types) | None -> "any index"
        in
        reader.instances <- { generalized = path; index; own_path } :: reader.instances;
        reader.texts <- Path.Map.add own_path (text_of_path reader path ^ " at " ^ index_text) reader.texts;
        own_path
  in
  reach reader scope.way own_path;
  Applied (Declared own_path, [])

(* How often a variable occurs in a type. *)
let occurrences variable ty =
  let rec count around ty =
    if Compat.same ty variable then 1
    else if List.exists (Compat.same ty) around then 0
    else begin
      let total = ref 0 in
      Compat.iter_parts (fun part -> total := !total + count (ty :: around) part) ty;
      !total
    end
  in
  count [] ty

(* Whether a type is a part at an index that nothing else in the parts has to do with. The part then has the type at some
   index, and that is the type at any one. *)
let is_at_free_index scope ty index =
  let total variable = List.fold_left (fun total part -> total + occurrences variable part) 0 scope.parts in
  List.exists (Compat.same ty) scope.parts
  && List.for_all (fun ty -> is_variable ty && total ty = 1) index
  && are_distinct index

(* A type that gives an index is itself read at an index, from the beginning on. *)
let read_generalized reader scope ty path arguments =
  let gives { declared; variables; _ } =
    match declared with
    | Some declared when List.exists (fun (variable, _) -> List.exists (Ctype.deep_occur variable) arguments) variables ->
        Some declared
    | _ -> None
  in
  match (index_fault arguments, gives scope) with
  | None, _ -> reach_instance reader scope path (Some (List.map (plain reader) arguments))
  | Some _, Some declared -> raise (Gives_index declared)
  | Some _, None when is_at_free_index scope ty arguments -> reach_instance reader scope path None
  | Some what, None when reader.lets_any ->
      note reader ~instead:"all its constructors, of" (text_of_path reader path :: scope.way) what;
      reach_instance reader scope path None
  | Some what, None -> refuse reader (text_of_path reader path :: scope.way) what

let fault_name reader scope = fault reader scope.way "a name that omarshal cannot write"

let refuse_missing reader path way =
  want reader path ".cmi";
  refuse reader way "a type of which no .cmi was found"

let rec read_type reader scope ty =
  match List.find_opt (fun { around; _ } -> Compat.same around ty) scope.enclosing with
  | Some enclosing -> Applied (Declared (name_of_enclosing reader enclosing), variables_of scope.parameters)
  | None -> (
      let enclosing = { around = ty; own_name = None } in
      let expression = read_parts reader { scope with enclosing = enclosing :: scope.enclosing } ty in
      match enclosing.own_name with
      | None -> expression
      | Some path ->
          declare_enclosing reader scope path expression;
          Applied (Declared path, variables_of scope.parameters))

and read_parts reader scope ty =
  match as_generalized reader ty with
  | Some (path, arguments) -> read_generalized reader scope ty path arguments
  | None -> read_shape reader scope ty

and read_shape reader scope ty =
  match Compat.shape ty with
  | Tconstr (path, arguments, _) -> (
      let path = canonical reader path in
      let read_arguments () = List.map (read_type reader scope) arguments in
      match predeclared path with
      | Some name when name = any_name ->
          note reader ~instead:"_" scope.way "by hand";
          any
      | Some name -> Applied (Predeclared name, read_arguments ())
      | None when reader.lets_any && Option.is_none (find_declaration reader path) ->
          refuse_missing reader path (text_of_path reader path :: scope.way)
      | None ->
          let arguments = read_arguments () in
          reach reader scope.way path;
          Applied (Declared path, arguments))
  | Ttuple parts -> Tuple (List.map (read_type reader scope) (unlabeled parts))
  | Tvariant row -> read_row reader scope row
  | Tpoly (ty, _) -> read_type reader scope ty
  | Tvar _ -> (
      match List.find_opt (fun (variable, _) -> Compat.same variable ty) scope.variables with
      | Some (_, name) -> Variable name
      | None -> refuse reader scope.way "an existential type")
  | Tunivar _ -> Nothing
  | Tarrow _ -> refuse reader scope.way "a function"
  | Tobject _ | Tfield _ | Tnil -> refuse reader scope.way "an object"
  | Tpackage _ -> refuse reader scope.way "a first-class module"
  | Tlink _ | Tsubst _ -> refuse reader scope.way "a type that the compiler has not finished"

(* The tags are sorted, since the compiler keeps no written order. `[> ..]` is open, and `[< ..]` has tags that may be
   absent. *)
and read_row reader scope row =
  let tags = List.map (fun (tag, field) -> (tag, Compat.presence field)) (Compat.tags row) in
  let tags = List.filter (fun (_, presence) -> presence <> Rabsent) tags in
  let is_bounded = List.exists (function _, Reither _ -> true | _ -> false) tags in
  let read_tag = function
    | tag, Rpresent argument ->
        let scope = step scope ("tag `" ^ tag) in
        if not (is_identifier tag) then fault_name reader scope;
        Some (tag, Option.map (read_type reader scope) argument)
    | _, (Reither _ | Rabsent) -> None
  in
  if not (Compat.is_closed row) then refuse reader scope.way "an open polymorphic variant"
  else if is_bounded then refuse reader scope.way "a bounded polymorphic variant"
  else if tags = [] then refuse reader scope.way "an empty polymorphic variant"
  else Polymorphic (List.sort (fun (tag, _) (other, _) -> compare tag other) (List.filter_map read_tag tags))

(* {1 Reading declarations} *)

(* OCaml has names that omarshal cannot write: with letters outside ASCII, and from 5.2 on keywords. *)
let check_name reader scope name =
  if not (is_identifier name) || List.mem name keywords then fault_name reader scope

(* What is read where a type is known without: OCaml made the fields of a flat record floats, whatever names they were
   given. *)
let as_float _ _ _ = Applied (Predeclared "float", [])

let read_field read reader scope { ld_id; ld_mutable; ld_type; _ } =
  let label = Ident.name ld_id in
  let scope = step scope ("field " ^ label) in
  check_name reader scope label;
  { changes = ld_mutable = Asttypes.Mutable; label; holds = read reader scope ld_type }

let types_of_arguments = function
  | Cstr_tuple types -> types
  | Cstr_record labels -> List.map (fun { ld_type; _ } -> ld_type) labels

let read_arguments reader scope arguments =
  let scope = { scope with parts = types_of_arguments arguments } in
  match arguments with
  | Cstr_record labels -> Inline (List.map (read_field read_type reader scope) labels)
  | Cstr_tuple [ ty ] -> Separate [ read_type reader scope ty ]
  | Cstr_tuple types ->
      let read_part index ty = read_type reader (step scope (Printf.sprintf "argument %d" (index + 1))) ty in
      Separate (List.mapi read_part types)

(* A constructor written with a result, as in `A : int -> t`, is an ordinary one where the result is the type at
   distinct variables. *)
let constructor_variables scope { cd_res; _ } =
  match Option.map Compat.shape cd_res with
  | Some (Tconstr (_, arguments, _)) -> List.combine arguments scope.parameters
  | Some _ | None -> scope.variables

(* A constructor as it is read, or one that no value has and that is there for its number *)
type kept = Asked of constructor_declaration | Without_values of constructor_declaration

let is_constant { cd_args; _ } = cd_args = Cstr_tuple []

let read_kept reader scope kept =
  let (Asked constructor | Without_values constructor) = kept in
  let name = Ident.name constructor.cd_id in
  let scope = step scope ("constructor " ^ name) in
  if constructor_name name = name then check_name reader scope name;
  match kept with
  | Asked _ ->
      let variables = constructor_variables scope constructor in
      (name, read_arguments reader { scope with variables } constructor.cd_args)
  | Without_values _ -> (name, Separate (if is_constant constructor then [] else [ Nothing ]))

let read_variant reader scope constructors =
  let has_arguments = function Asked constructor | Without_values constructor -> not (is_constant constructor) in
  if constructors = [] then Abbreviation Nothing
  else if List.length (List.filter has_arguments constructors) > 244 then
    Abbreviation (refuse reader scope.way "a variant of more than 244 constructors with arguments")
  else
    let named = List.map (read_kept reader scope) constructors in
    Variant (List.combine (constructor_names (List.map fst named)) (List.map snd named))

(* A constructor at an index: with its parts there, of another index, or one of which that is not known. *)
type at_index = At_it of constructor_declaration | At_another | Not_known

let at_index reader parameters index ({ cd_args; cd_res; _ } as constructor) =
  let result =
    match Option.map Compat.shape cd_res with Some (Tconstr (_, arguments, _)) -> arguments | _ -> parameters
  in
  let tuple types = Btype.newgenty (Compat.tuple (List.map (fun ty -> (None, ty)) types)) in
  let all = tuple [ tuple (List.map (plain reader) result); tuple index; tuple (types_of_arguments cd_args) ] in
  let tuple_parts ty = match Compat.shape ty with Ttuple parts -> unlabeled parts | _ -> [] in
  match tuple_parts (Ctype.instance all) with
  | [ result; index; parts ] -> (
      let before = Btype.snapshot () in
      match Ctype.unify reader.environment result index with
      | () ->
          let parts = tuple_parts parts in
          let cd_args =
            match cd_args with
            | Cstr_tuple _ -> Cstr_tuple parts
            | Cstr_record labels -> Cstr_record (List.map2 (fun label ld_type -> { label with ld_type }) labels parts)
          in
          At_it { constructor with cd_args; cd_res = None }
      | exception Ctype.Unify _ -> (
          Btype.backtrack before;
          match Ctype.mcomp reader.environment result index with
          | () -> Not_known
          | exception Ctype.Incompatible -> At_another))
  | _ -> Not_known

(* The constructors of a type at an index. One of another index is left out where none comes after it that OCaml numbers
   with it; else its number would be given to another. It is kept with a part that has no value, or, where it has no
   parts, with --any alone. Each is kept that may be of the index, and all are of any index; the types that only its
   result determines are existential ones then. *)
let constructors_at reader scope parameters index constructors =
  let without_result constructor = { constructor with cd_res = None } in
  let rec keep = function
    | [] -> []
    | (constructor, found) :: others -> (
        let way = (step scope ("constructor " ^ Ident.name constructor.cd_id)).way in
        let kept what kept =
          if reader.lets_any then note reader ~instead:"kept, though" way what else fault reader way what;
          kept :: keep others
        in
        let is_numbered_with (other, found) = found <> At_another && is_constant other = is_constant constructor in
        match found with
        | At_it constructor -> Asked constructor :: keep others
        | Not_known ->
            kept "a generalized constructor (GADT) that may be of another index" (Asked (without_result constructor))
        | At_another when not (List.exists is_numbered_with others) -> keep others
        | At_another when is_constant constructor ->
            kept "a constant generalized constructor (GADT) of another index, before others"
              (Without_values (without_result constructor))
        | At_another -> Without_values (without_result constructor) :: keep others)
  in
  match index with
  | None -> List.map (fun constructor -> Asked (without_result constructor)) constructors
  | Some index ->
      keep (List.map (fun constructor -> (constructor, at_index reader parameters index constructor)) constructors)

(* What an unboxed type holds: the one part of its constructor, if that was not refused. *)
let read_unboxed reader scope constructor =
  match read_kept reader scope constructor with
  | _, (Separate [ holds ] | Inline [ { holds; _ } ]) -> Abbreviation holds
  | _, (Separate _ | Inline _) -> Abbreviation placeholder

let abstract_kind reader path =
  let lacks_implementation name = implementation reader name = None in
  want reader path ".cmt";
  if not reader.looks_inside then "an abstract type (--cmt was not given)"
  else if Option.fold ~none:false ~some:lacks_implementation (unit_name path) then
    "an abstract type (no .cmt was found)"
  else "an abstract type"

(* The report on a type that shows no representation. *)
let hidden_kind reader path declaration =
  match (Path.last path, declaration.type_kind) with
  | "lazy_t", _ when is_predefined path -> "a lazy value"
  | "exn", _ when is_predefined path -> "an exception"
  | "iarray", _ when is_predefined path -> "an immutable array (iarray)"
  | "atomic_loc", _ when is_predefined path -> "an atomic location"
  | _, Type_open -> "an extensible variant"
  | _ -> abstract_kind reader path

(* A type that is written again, as `type t = Other.t = A | B`, is the other one, where that one is found. *)
let repeats_a_known_type reader path declaration =
  match Option.map Compat.shape declaration.type_manifest with
  | Some (Tconstr (other, _, _)) ->
      let other = canonical reader other in
      (not (Path.same other path)) && Option.is_some (find_declaration reader other)
  | Some _ | None -> false

let read_body reader scope path declaration =
  let parts =
    match declaration with
    | { type_kind = Type_record (labels, _); _ } -> types_of_arguments (Cstr_record labels)
    | { type_manifest; _ } -> Option.to_list type_manifest
  in
  let scope = { scope with parts } in
  match (declaration.type_kind, declaration.type_manifest) with
  | _ when Path.name path = "Stdlib__Domain.DLS.key" ->
      Abbreviation (refuse reader scope.way "a key of domain-local storage (Domain.DLS)")
  | (Type_record _ | Type_variant _), Some manifest when repeats_a_known_type reader path declaration ->
      Abbreviation (read_type reader scope manifest)
  | Type_record ([ label ], Record_unboxed _), _ ->
      Abbreviation (read_type reader (step scope ("field " ^ Ident.name label.ld_id)) label.ld_type)
  | Type_record (labels, representation), _ ->
      let is_flat = representation = Record_float in
      let read = if is_flat then as_float else read_type in
      Record { is_flat; fields = List.map (read_field read reader scope) labels }
  | Type_variant ([ constructor ], Variant_unboxed), _ -> read_unboxed reader scope (Asked constructor)
  | Type_variant (constructors, _), _ ->
      read_variant reader scope (List.map (fun constructor -> Asked constructor) constructors)
  | _, Some manifest -> Abbreviation (read_type reader scope manifest)
  | _, None -> (
      match (hidden_kind reader path declaration, scope.parameters) with
      (* A lazy value is a block that omarshal does not read, or its content once this is computed. *)
      | ("a lazy value" as what), [ parameter ] when reader.lets_any ->
          note reader ~instead:"its content, for" scope.way what;
          Abbreviation (Variable parameter)
      | what, _ -> Abbreviation (refuse reader scope.way what))

let read_declaration reader path way (origin, declaration) =
  let parameters = List.mapi (fun index _ -> parameter_name index) declaration.type_params in
  let body =
    match name_variables declaration.type_params parameters with
    | None -> Abbreviation (refuse reader way "a parameter with a constraint")
    | Some variables ->
        let owner = text_of_path reader path in
        let scope = { variables; parameters; declared = Some path; parts = []; enclosing = []; way; owner } in
        read_body reader scope path declaration
  in
  reader.declarations <- { path; parameters; body; origin; reached = way } :: reader.declarations

(* A declaration with its index in place of its parameters. *)
let at_arguments reader declaration index =
  let declaration = Ctype.instance_declaration declaration in
  let give parameter argument = Ctype.unify reader.environment parameter (Ctype.instance argument) in
  List.iter2 give declaration.type_params index;
  declaration

let read_instance reader way { generalized; index; own_path } =
  let scope =
    let owner = text_of_path reader own_path in
    { variables = []; parameters = []; declared = None; parts = []; enclosing = []; way; owner }
  in
  let declare origin body =
    reader.declarations <- { path = own_path; parameters = []; body; origin; reached = way } :: reader.declarations
  in
  match find_declaration reader generalized with
  | Some (origin, { type_kind = Type_variant (constructors, representation); type_params; _ }) ->
      declare origin
        (match (constructors_at reader scope type_params index constructors, representation) with
        | [ constructor ], Variant_unboxed -> read_unboxed reader scope constructor
        | constructors, _ -> read_variant reader scope constructors)
  | Some (origin, declaration) ->
      let declaration = Option.fold ~none:declaration ~some:(at_arguments reader declaration) index in
      declare origin (read_body reader scope generalized declaration)
  | None -> ignore (refuse_missing reader generalized way)

(* Reads what waits, nearest types first, until nothing does. *)
let rec read_waiting reader =
  match Queue.take_opt reader.waiting with
  | None -> ()
  | Some (path, way) ->
      let is_it { own_path; _ } = Path.same own_path path in
      (match (List.find_opt is_it reader.instances, find_declaration reader path) with
      | Some instance, _ -> read_instance reader way instance
      | None, Some found -> read_declaration reader path way found
      | None, None -> ignore (refuse_missing reader path way));
      read_waiting reader
