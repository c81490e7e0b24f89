# Answers words that ask for help or the version with their text in epx.help:
#     awk -f help.awk epx.help WORD..
# The status is 1 where the file has no text for them.
BEGIN {
    head = "== [\"epx\""
    for (word = 2; word < ARGC; word++) {
        head = head ", \"" ARGV[word] "\""
        delete ARGV[word]
    }
    head = head "]"
}
/^== / { is_wanted = $0 == head; is_found += is_wanted; next }
is_wanted
END { exit !is_found }
