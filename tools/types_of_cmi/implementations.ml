(* The reader's state, and the declaration of a type by an interface, a `.cmt` file or the words. *)

open Types
open Declarations

exception Wrong_words of string

let wrong_words format = Printf.ksprintf (fun text -> raise (Wrong_words text)) format

(* {1 The reader} *)

(* A type has to be read at its arguments: it gives the index of a generalized type (GADT) by a parameter of its own, or is
   named in its group at an argument that reaches the type without values. *)
exception Gives_index of Path.t

(* A type at an index, or at any one: a generalized type (GADT), one that gives an index, or one with a constraint on a
   parameter. It is declared by a name of its own, without parameters. *)
type instance = { generalized : Path.t; index : type_expr list option; own_path : Path.t }

type reader = {
  mutable environment : Env.t;
  looks_inside : bool;  (** whether it looks for hidden types in `.cmt` files *)
  lets_any : bool;  (** whether `_` stands for a part that has no form *)
  mutable implementations : (string * Ident.t option) list;
      (** the modules of which it looked for one, with the name of what was found *)
  by_hand : type_declaration Path.Map.t;  (** the declarations given by `--declare` *)
  giving : Path.Set.t;  (** the types that `Gives_index` named *)
  synonyms : Path.t Path.Map.t;  (** the types that these are for, by the names they have while they are read *)
  mutable texts : string Path.Map.t;  (** texts of types that have no path in OCaml *)
  mutable known : Path.Set.t;  (** the types that were reached *)
  mutable declarations : declaration list;  (** those that were read, the last one first *)
  mutable faults : fault list;  (** the last one first *)
  mutable notes : note list;  (** the last one first *)
  mutable instances : instance list;  (** the types at an index that were reached *)
  mutable wanted : string list;  (** files that were not found and may help *)
  waiting : (Path.t * way) Queue.t;  (** types reached and not read yet *)
}

(* A type inside which the reader is. It gets a name where it holds itself, as in [ `A of 'r ] as 'r. *)
type enclosing = { around : type_expr; mutable own_name : Path.t option }

type scope = {
  owner : string;  (** the text of the declared type that is read *)
  variables : (type_expr * string) list;  (** the names of type variables *)
  parameters : string list;  (** those of the declaration that is read *)
  declared : Path.t option;  (** its path, if it has parameters *)
  parts : type_expr list;  (** the types of the parts of its constructor or record, or what it abbreviates *)
  enclosing : enclosing list;
  way : way;
}

let step scope text = { scope with way = text :: scope.way }
let text_of_path reader path = try Path.Map.find path reader.texts with Not_found -> path_text path

(* Every fault is reported, so reading goes on with some type in place of what has no form. *)
let placeholder = Applied (Predeclared "unit", [])

let fault reader where what = reader.faults <- { where; what } :: reader.faults
let note reader ~instead where what = reader.notes <- { instead; why = { where; what } } :: reader.notes

let refuse reader where what =
  if reader.lets_any then begin
    note reader ~instead:"_ for" where what;
    any
  end
  else begin
    fault reader where what;
    placeholder
  end

(* {1 Implementations} *)

(* The checksum of the interface: the one that was made with the implementation, or the one that it was compiled for. *)
let interface_digest { Cmt_format.cmt_modname; cmt_interface_digest; cmt_imports; _ } =
  match cmt_interface_digest with
  | Some digest -> Some digest
  | None -> Option.join (List.assoc_opt cmt_modname cmt_imports)

let rec unconstrained expression =
  match expression.Typedtree.mod_desc with
  | Tmod_constraint (inner, _, _, _) -> unconstrained inner
  | _ -> expression

(* A signature in which each abstract type is the one of the same name in the module at the path. *)
let rec revealed path signature =
  let reveal = function
    | Sig_type (id, ({ type_manifest = None; type_params; _ } as declaration), recursive, visibility)
      when Library.is_abstract declaration ->
        let manifest = Btype.newgenty (Tconstr (Path.Pdot (path, Ident.name id), type_params, ref Mnil)) in
        Sig_type (id, { declaration with type_manifest = Some manifest }, recursive, visibility)
    | Sig_module (id, Mp_present, ({ md_type = Mty_signature inner; _ } as declaration), recursive, visibility) ->
        let md_type = Mty_signature (revealed (Path.Pdot (path, Ident.name id)) inner) in
        Sig_module (id, Mp_present, { declaration with md_type }, recursive, visibility)
    | item -> item
  in
  List.map reveal signature

let module_item id md_type =
  let declaration =
    { md_type; md_attributes = []; md_loc = Location.none; md_uid = Uid.internal_not_actually_unique }
  in
  Sig_module (id, Mp_present, declaration, Trec_not, Exported)

let is_item_of signature item =
  let id = Types.signature_item_id item in
  List.exists (fun other -> Ident.same id (Types.signature_item_id other)) signature

(* The type of a structure in which no module hides a type behind a signature, as in `module M : S = struct .. end`.
   What an applied functor makes has the types of the application; an argument without a name is a module more. What a
   module includes behind a signature, as in `include (M : S)`, has the types of that module. *)
let rec unsealed_structure environment { Typedtree.str_items; str_type; _ } =
  let environment = Env.add_signature str_type environment in
  let arguments = ref [] in
  let application ?(is_included = false) name expression =
    let is_application desc =
      match desc with
      | Typedtree.Tmod_apply _ -> true
      | Tmod_ident _ -> is_included && expression != unconstrained expression
      | _ -> Option.is_some (Compat.generative desc)
    in
    if not (is_application (unconstrained expression).Typedtree.mod_desc) then None
    else
      match applied_path environment name expression with
      | Some (path, modules) ->
          arguments := modules @ !arguments;
          Some path
      | None -> None
  in
  let bindings_of item =
    match item.Typedtree.str_desc with
    | Tstr_module binding -> [ binding ]
    | Tstr_recmodule bindings -> bindings
    | _ -> []
  in
  let bindings = List.concat_map bindings_of str_items in
  let inclusion_of item =
    match item.Typedtree.str_desc with Tstr_include { incl_mod; incl_type; _ } -> Some (incl_mod, incl_type) | _ -> None
  in
  let included index (expression, signature) =
    let name = Printf.sprintf "include %d" (index + 1) in
    Option.map (fun path -> (path, signature)) (application ~is_included:true name expression)
  in
  let inclusions = List.filter_map Fun.id (List.mapi included (List.filter_map inclusion_of str_items)) in
  let unsealed_binding id declaration { Typedtree.mb_expr; _ } =
    match application (Ident.name id) mb_expr with
    | None -> unsealed_module environment mb_expr ~otherwise:declaration.md_type
    | Some path -> (
        match Mtype.scrape environment (unconstrained mb_expr).mod_type with
        | Mty_signature signature -> Mty_signature (revealed path signature)
        | _ -> declaration.md_type)
  in
  let unseal item =
    match (item, List.find_opt (fun (_, signature) -> is_item_of signature item) inclusions) with
    | _, Some (path, _) -> List.hd (revealed path [ item ])
    | Sig_module (id, presence, declaration, recursive, visibility), None ->
        let is_it { Typedtree.mb_id; _ } = Option.fold ~none:false ~some:(Ident.same id) mb_id in
        let md_type =
          Option.fold ~none:declaration.md_type ~some:(unsealed_binding id declaration) (List.find_opt is_it bindings)
        in
        Sig_module (id, presence, { declaration with md_type }, recursive, visibility)
    | item, None -> item
  in
  let items = List.map unseal str_type in
  Mty_signature (!arguments @ items)

and unsealed_module environment { Typedtree.mod_desc; _ } ~otherwise =
  let inside inner = unsealed_module environment inner ~otherwise:inner.Typedtree.mod_type in
  match mod_desc with
  | Tmod_constraint (inner, _, _, _) -> inside inner
  | Tmod_structure structure -> unsealed_structure environment structure
  | Tmod_functor (Unit, body) -> Mty_functor (Unit, inside body)
  | Tmod_functor (Named (id, _, parameter), body) -> Mty_functor (Named (id, parameter.mty_type), inside body)
  | _ -> otherwise

(* The path of a module, as `Map.Make(Key)`, and the modules in it that have no name in the program, each by a name
   that no module of a program can have. *)
and applied_path environment name expression =
  let expression = unconstrained expression in
  match expression.Typedtree.mod_desc with
  | Tmod_ident (path, _) -> Some (path, [])
  | Tmod_apply (applied, argument, _) -> (
      let applied = applied_path environment ("functor of " ^ name) applied in
      match (applied, applied_path environment ("argument of " ^ name) argument) with
      | Some (applied, modules), Some (argument, others) -> Some (Path.Papply (applied, argument), modules @ others)
      | _ -> None)
  | Tmod_structure _ | Tmod_functor _ ->
      let id = Ident.create_local name in
      let md_type = unsealed_module environment expression ~otherwise:expression.mod_type in
      Some (Path.Pident id, [ module_item id md_type ])
  | desc ->
      let apply (applied, modules) =
        let id = Ident.create_local ("argument of " ^ name) in
        (Path.Papply (applied, Path.Pident id), module_item id (Mty_signature []) :: modules)
      in
      Option.map apply (Option.bind (Compat.generative desc) (applied_path environment ("functor of " ^ name)))

(* The types of the implementation of a module, as a module of the environment, if its `.cmt` is found. *)
let read_implementation reader name =
  match Cmt_format.read_cmt (Compat.find_file (name ^ ".cmt")) with
  | { cmt_annots = Implementation structure; _ } as cmt ->
      if interface_digest cmt <> Some (Env.crc_of_unit name) then
        wrong_words "the .cmt of %s is of another interface than its .cmi" name;
      let id = Ident.create_scoped ~scope:Ident.lowest_scope name in
      let unsealed = unsealed_structure reader.environment structure in
      reader.environment <- Env.add_module id Mp_present unsealed reader.environment;
      Some id
  | _ -> None
  | exception Not_found -> None

let implementation reader name =
  match List.assoc_opt name reader.implementations with
  | Some found -> found
  | None ->
      let found = read_implementation reader name in
      reader.implementations <- (name, found) :: reader.implementations;
      found

(* The module of a path that has files of its own. *)
let rec unit_name path =
  match Compat.view path with
  | Ident id -> if Ident.persistent id then Some (Ident.name id) else None
  | Dot (path, _) | Apply (path, _) | Extra path -> unit_name path

(* Remembers the file of that module as one that may help, where it is not found. *)
let want reader path extension =
  let add name =
    let file = String.uncapitalize_ascii name ^ extension in
    match Compat.find_file file with _ -> () | exception Not_found -> reader.wanted <- file :: reader.wanted
  in
  Option.iter add (unit_name path)

(* A path into the implementation of its module. *)
let rec path_inside reader path =
  match Compat.view path with
  | Ident id when Ident.persistent id ->
      Option.map (fun inside -> Path.Pident inside) (implementation reader (Ident.name id))
  | Ident _ -> None
  | Dot (path, name) -> Option.map (fun inside -> Path.Pdot (inside, name)) (path_inside reader path)
  | Apply (path, argument) ->
      Option.map (fun inside -> Path.Papply (inside, argument)) (path_inside reader path)
  | Extra outer -> Option.map (fun inside -> Compat.with_outer inside path) (path_inside reader outer)

let is_implementation reader id =
  List.exists (fun (_, found) -> Option.fold ~none:false ~some:(Ident.same id) found) reader.implementations

let rec is_inside reader path =
  match Compat.view path with
  | Ident id -> is_implementation reader id
  | Dot (path, _) | Apply (path, _) | Extra path -> is_inside reader path

let normalize reader path = Env.normalize_type_path None reader.environment path
let find_shown reader path = try Some (Env.find_type path reader.environment) with Not_found -> None

let is_predefined path =
  match Compat.view path with Ident id -> Ident.is_predef id | Dot _ | Apply _ | Extra _ -> false

let is_module reader path =
  match Env.find_module path reader.environment with _ -> true | exception Not_found -> false

(* A path out of the implementations in it, where the interfaces have it. *)
let rec path_outside reader path =
  match Compat.view path with
  | Ident id when is_implementation reader id -> Path.Pident (Ident.create_persistent (Ident.name id))
  | Ident _ -> path
  | Dot (path, name) -> Path.Pdot (path_outside reader path, name)
  | Apply (path, argument) ->
      let outside = path_outside reader argument in
      Path.Papply (path_outside reader path, if is_module reader outside then outside else argument)
  | Extra outer -> Compat.with_outer (path_outside reader outer) path

(* Whether an interface has a type only as another name of one that it hides. *)
let rec renames_hidden ?(is_renamed = false) reader path =
  match find_shown reader path with
  | Some declaration when Library.is_abstract declaration -> (
      match Option.map Compat.shape declaration.type_manifest with
      | None -> is_renamed && not (is_predefined path)
      | Some (Tconstr (target, _, _)) -> renames_hidden ~is_renamed:true reader (normalize reader target)
      | Some _ -> false)
  | Some _ | None -> false

(* The one path of a type, whatever aliases of modules were used to write it; that of its interface, if this has it. *)
let canonical reader path =
  let path = normalize reader path in
  let outside = normalize reader (path_outside reader path) in
  let is_another_name = is_inside reader path && renames_hidden reader outside in
  let path = if Option.is_some (find_shown reader outside) && not is_another_name then outside else path in
  try Path.Map.find path reader.synonyms with Not_found -> path

let shows_nothing declaration = declaration.type_manifest = None && Library.is_abstract declaration

(* The declaration of a type that `known.ml` has. *)
let find_known reader path =
  let read text =
    match Library.type_declarations reader.environment (Library.signature text) with
    | [ (_, declaration) ] -> Some (Known, declaration)
    | _ -> None
  in
  Option.bind (List.assoc_opt (Path.name path) Known.declarations) read

(* Where an interface hides a type, what the implementation has, and where this hides it too, what is known of it. *)
let find_declaration reader path =
  let known found = match find_known reader path with Some known -> Some known | None -> Some found in
  match (Path.Map.find_opt path reader.by_hand, find_shown reader path) with
  | Some declaration, _ -> Some (By_hand, declaration)
  | None, Some hidden when reader.looks_inside && shows_nothing hidden -> (
      match Option.bind (path_inside reader path) (find_shown reader) with
      | Some declaration when shows_nothing declaration -> known (Hidden, declaration)
      | Some declaration -> Some (Hidden, declaration)
      | None -> known (Shown, hidden))
  | None, shown ->
      let origin = if is_inside reader path then Hidden else Shown in
      Option.map (fun declaration -> (origin, declaration)) shown
