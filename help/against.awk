# Compares a pinned list, the second file, with the one that the program printed, the first. Exit status 0 if both have the same plans, else 4.
# The environment has RULE and PINNED, their names.

{ sub(/\r$/, "") }
NR == FNR { if (is_plan($0)) { plan[++plans] = $0; allowed[$0] }; next }
{ line[FNR] = $0; lines = FNR }

END {
    if (lines && is_ending(line[lines])) ending = line[lines--]
    for (i = 1; i <= lines; i++) {
        if (!is_plan(line[i])) { differ("line " i " is no plan: " shown(line[i])); continue }
        if (line[i] in pinned) { differ("twice: " line[i] " (lines " pinned[line[i]] " and " i ")"); continue }
        pinned[line[i]] = i
        if (!(line[i] in allowed)) { differ("not allowed: " line[i] " (line " i ")"); continue }
        if (!moved && line[i] != plan[++next_plan]) moved = 1
    }
    for (i = 1; i <= plans; i++) if (!(plan[i] in pinned)) differ("missing: " plan[i])
    if (ending != "" && ending !~ /^whole /) print ENVIRON["PINNED"] " itself ends `" ending "`: it was no whole list."
    if (differences) { print ENVIRON["PINNED"] " is not the list of " ENVIRON["RULE"] ": " differences (differences == 1 ? " difference." : " differences."); exit 4 }
    print ENVIRON["PINNED"] " is right: " (plans == 0 ? ENVIRON["RULE"] " has no plans." : plans == 1 ? "it has the one plan of " ENVIRON["RULE"] "." : "it has all " plans " plans of " ENVIRON["RULE"] (moved ? ", in another order." : "."))
}

function differ(words) { print words; differences++ }
function is_plan(s) { return s ~ /^(0|-?[1-9][0-9]*) :( (0|-?[1-9][0-9]*))*$/ }
function is_ending(s) { return s ~ /^(whole|cut|full|spent) [0-9]+ rows [0-9]+ moves$/ }
function shown(s) { gsub(/[\001-\037\177]/, "?", s); return length(s) > 60 ? substr(s, 1, 60) " ..." : s }
