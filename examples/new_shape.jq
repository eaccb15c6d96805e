# Turns lines of linkshow up to 0.3 into the shape that later ones have: an attribute that is a list is an array under
# its name, also where it came once.
#
#     jq -ac -f examples/new_shape.jq <kept >turned
#
# Lines that have the new shape already go through as they are, and so do lines of linkdiff. -a keeps the escapes of
# characters that a terminal would obey. jq before 1.7 rounds numbers above 2^53.
#
# The object around a name says whether the name is that of a list: `macaddr` is one in `macaddr-data`, and a single
# address in the data of a macvlan.

# Does something to the value of a name, and to the earlier values of it under `repeated`.
def each_of($name; f):
  def here: if has($name) then .[$name] |= f else . end;
  if type != "object" then . elif has("repeated") then here | .repeated |= map(here) else here end;

def is_one_of($names): . as $name | any($names[]; . == $name);

# All values of a name, the last one behind those under `repeated`.
def all_of($name):
  if .[$name] | type == "array" then .[$name]
  else [(.repeated // [])[] | select(has($name)) | .[$name]] + [.[$name]] end;

# An object in which these names have arrays, which stand behind all other names.
def listed($names):
  if type != "object" then . else
    [(.repeated // [])[] | select(keys_unsorted[0] | is_one_of($names) | not)] as $left
    | with_entries(select(.key | is_one_of($names + ["repeated", "other"]) | not))
      + ([$names[] as $name | select(has($name)) | {($name): all_of($name)}] | add // {})
      + (if $left == [] then {} else {repeated: $left} end)
      + (if has("other") then {other} else {} end)
  end;

# The attributes of a message.
def attributes($family):
  each_of("linkinfo"; each_of("data";
    each_of("egress-qos"; listed(["mapping"]))
    | each_of("ingress-qos"; listed(["mapping"]))
    | each_of("macaddr-data"; listed(["macaddr"]))))
  | if $family != 7 then . else
      each_of("af-spec"; each_of("mst"; listed(["entry"])) | listed(["vlan-info", "vlan-tunnel-info"]))
    end;

."ifi-family" as $family
| attributes($family)
| if has("before") then .before |= attributes($family) else . end
