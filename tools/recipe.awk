# Prints the lines to copy that stand in a page after the mark <!-- recipe: NAME -->.
# Usage: awk -v name=NAME -f tools/recipe.awk PAGE
$0 == "<!-- recipe: " name " -->" { on = 1; next }
on && /^    / { while (blank) { print ""; blank-- } print substr($0, 5); seen = 1; next }
on && seen && /^$/ { blank++; next }
on && seen { exit }
