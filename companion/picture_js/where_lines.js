/** The shapes of the lines of `where`, as companion/pack writes them by python/igesolid/where_lines.py. */
export const TABLE = `
closed <solid>
fail <rule> <entity> <place>
bad file line <line> <reason>
line <line> bytes <bytes> end <end>
  hex <hex>
  column <column>
  text <text>
  mark <mark>
solids <solids> failing <failing>
unjudged <count> <type>
  shell <shell> form <form> faces <its_faces>
  face <face>
  more <more>
units <unit_flag> <unit>
shells <shells> failing <failing>
shell <shell> entity <entity> flag <flag> faces <faces> edges <edges> vertices <vertices> JOIN <JOIN> PAIR <PAIR> REACH <REACH> LINK <LINK> APART <APART>
hint face-flags faces <faces>
hint remedy <remedy> shell <shell>
hint stuck shell <shell>
hint other-form form <form>
hint shell
hint solids <numbers> more <more>
hint solids <numbers>
hint empty-solid
hint loose-shells
hint loose-faces
hint trimmed
hint other-solids
hint no-solid
hint unjudged solids <solids>
hint looks-like <kind>
hint layout
hint more <more>
step remove faces <faces>
step turn faces <faces>
step reverse loops <loops>
step flags uses <uses>
step sew seams <seams>
step copy vertices <vertices>
step renew edges <edges>
step part bodies <bodies>
step fill rims <rims>
remove <face> <surface_type>
turn <face> <surface_type>
reverse loop <loop> face <face> <surface_type>
change loop <loop> tuple <tuple> flag <flag>
seam <how> edge <list> <index> edge <left_list> <left_index>
copy vertex <list> <index> <x> <y> <z>
renew edge <list> <index> start <start_list> <start_index> <start_x> <start_y> <start_z> end <end_list> <end_index> <end_x> <end_y> <end_z>
body <body> faces <faces> first <face> <surface_type>
rim <rim> edges <edges> edge <list> <index>
rule <rule> shell <shell> faults <faults> once <once> same-way <same_way> many <many>
rule <rule> shell <shell> faults <faults> parts <parts>
rule <rule> shell <shell> faults <faults>
rule <rule> faults <faults>
gap <loop> <tuple>
  face <face> <surface_type>
  this tuple <tuple> edge <list> <index> flag <flag> curve <curve> <curve_type>
  this tuple <tuple> vertex <list> <index>
  ends <list> <index> <x> <y> <z>
  next tuple <tuple> edge <list> <index> flag <flag> curve <curve> <curve_type>
  next tuple <tuple> vertex <list> <index>
  starts <list> <index> <x> <y> <z>
edge <list> <index> along <along> against <against>
  curve <curve> <curve_type>
  start <list> <index> <x> <y> <z>
  end <list> <index> <x> <y> <z>
  along face <face> <surface_type> loop <loop> tuple <tuple> flags <tuple_flag> <face_flag> <shell_flag>
  against face <face> <surface_type> loop <loop> tuple <tuple> flags <tuple_flag> <face_flag> <shell_flag>
  more <more>
part <part> faces <faces> edges <edges> vertices <vertices> unpaired <unpaired> touching <touching>
  at <list> <index> <x> <y> <z>
  touches <list> <index> <x> <y> <z>
  face <face> <surface_type>
  more <more>
vertex <list> <index> <x> <y> <z>
vertex <list> <index> <x> <y> <z> fans <fans> points <points>
  fan <fan> face <face> <surface_type> loop <loop> tuple <tuple> edge <list> <index> to <to_list> <to_index> <x> <y> <z>
  point face <face> <surface_type> loop <loop>
  in shell <shell> face <face> <surface_type>
  more <more>
item <entity> <place>
  value <value> found <found>
  line <line> column <column>
  text <text>
  mark <mark>
  due <due>
  why <why>
  entry <entry> <type> form <form>
  values <values>
  first <entity> item <item>
  list <list> <type> items <items>
  in solid <entity>
  in shell <entity> item <item>
  in face <entity> item <item>
  in loop <entity> item <item>
more <more>
entities <entities>
solid <solid> closed
solid <solid> fail <rule> <entity> <place>
solid <solid> unjudged
entity <entity> <type>
entity <entity> <type> surface <surface> <surface_type>
  lines directory <directory> record <first> <last>
  level <level>
  colour <colour> <red> <green> <blue> <name>
  colour <colour> <red> <green> <blue>
  colour <colour> <word>
  colour <colour>
  matrix <matrix>
  label <label>
  subscript <subscript>
  name <name>
  more <more>
`;
export const NUMBER = "(?:0|[1-9][0-9]*)";
export const KINDS = {
  "level": "-?(?:0|[1-9][0-9]*)",
  "colour": "-?(?:0|[1-9][0-9]*)",
  "matrix": "-?(?:0|[1-9][0-9]*)",
  "subscript": "-?(?:0|[1-9][0-9]*)",
  "form": "-?(?:0|[1-9][0-9]*)",
  "start_x": "[^ ]+",
  "start_y": "[^ ]+",
  "start_z": "[^ ]+",
  "end_x": "[^ ]+",
  "end_y": "[^ ]+",
  "end_z": "[^ ]+",
  "how": "sure|places|curve",
  "flag": "[01]",
  "tuple_flag": "[01]",
  "face_flag": "[01]",
  "shell_flag": "[01]",
  "type": "[a-z0-9-]+",
  "surface_type": "[a-z0-9-]+",
  "curve_type": "[a-z0-9-]+",
  "reason": "[a-z0-9-]+",
  "word": "[a-z0-9-]+",
  "kind": "[a-z0-9-]+",
  "x": "[^ ]+",
  "y": "[^ ]+",
  "z": "[^ ]+",
  "red": "[^ ]+",
  "green": "[^ ]+",
  "blue": "[^ ]+",
  "unit_flag": "[^ ]+",
  "unit": ".*",
  "found": ".*",
  "label": ".*",
  "name": ".*",
  "text": ".*",
  "rule": "ENTRY|TYPE|RECORD|ONCE|INDEX|GEOMETRY|JOIN|PAIR|REACH|LINK|APART",
  "due": "solid form 0|shell form 1|(?:face|loop|edge-list|vertex-list) form 0 1|geometry|pointer|index|flag|type|count|coordinate|count-or-pointer",
  "why": "zero|negative|even|beyond|null",
  "end": "lf|crlf|cr|none",
  "hex": "[0-9a-f]{2}(?: [0-9a-f]{2})*",
  "mark": " *\\^+",
  "numbers": "(?:0|[1-9][0-9]*)(?: (?:0|[1-9][0-9]*))*",
  "LINK": "(?:0|[1-9][0-9]*)|-",
  "its_faces": "(?:0|[1-9][0-9]*)|-"
};
export const SENTENCES = [
  "bad",
  "hint",
  "rule",
  "step"
];
export const UNSAID = "hint more";
export const ITEMS = {
  "hint": [
    "step"
  ],
  "step": [
    "remove",
    "turn",
    "reverse",
    "change",
    "seam",
    "copy",
    "renew",
    "body",
    "rim",
    "more"
  ],
  "rule": [
    "gap",
    "edge",
    "part",
    "vertex",
    "item",
    "more"
  ]
};
export const ALIKE = {
  "solid": "entity"
};
