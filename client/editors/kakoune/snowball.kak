# Snowball scripts in Kakoune: source this in kakrc. With kak-lsp add the lines at the end.
hook global BufCreate .*[.]sbl %{ set-option buffer filetype snowball }
hook global BufCreate .*[.]words %{ set-option buffer filetype snowball-words }
hook global BufCreate .*[.]stems %{ set-option buffer filetype snowball-stems }
hook global WinSetOption filetype=snowball %{
    add-highlighter window/snowball ref snowball
    try %{ set-option buffer comment_line '//' }
    hook -once -always window WinSetOption filetype=.* %{ remove-highlighter window/snowball }
}
add-highlighter shared/snowball regions
add-highlighter shared/snowball/comment region /\* \*/ fill comment
add-highlighter shared/snowball/line region // $ fill comment
add-highlighter shared/snowball/literal region "'" "'|$" fill string
add-highlighter shared/snowball/code default-region group
add-highlighter shared/snowball/code/ regex \b(externals|routines|groupings|integers|booleans|strings)\b 0:type
add-highlighter shared/snowball/code/ regex \b(define|as|backwardmode|stringescapes|stringdef|hex|decimal)\b 0:meta
add-highlighter shared/snowball/code/ regex \bdefine\h+(\w+) 1:function
add-highlighter shared/snowball/code/ regex \b(among|and|atleast|backwards|do|fail|for|gopast|goto|loop|non|not|or|repeat|setlimit|substring|test|try)\b 0:keyword
add-highlighter shared/snowball/code/ regex \b(atlimit|atmark|attach|delete|hop|insert|next|set|setmark|tolimit|tomark|unset)\b 0:builtin
add-highlighter shared/snowball/code/ regex \b(cursor|false|len|lenof|limit|maxint|minint|true|\d+)\b 0:value
add-highlighter shared/snowball/code/ regex \b(get|reverse|size|sizeof)\b 0:Error
# With kak-lsp 17 and later:
#   hook global BufSetOption filetype=snowball(-words|-stems)? %{
#       set-option buffer lsp_servers %{
#           [snowbench]
#           root_globs = [".git"]
#           command = "/path/to/snowbench"
#           args = ["lsp"]
#       }
#   }
# With an older one in kak-lsp.toml:
#   [language_server.snowbench]
#   filetypes = ["snowball", "snowball-words", "snowball-stems"]
#   roots = [".git"]
#   command = "/path/to/snowbench"
#   args = ["lsp"]
