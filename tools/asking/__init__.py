# The modules of ./ask, by subject. Each uses those above it alone.
#
#   words         refusals, statuses, reasons, roles and marks in words; times and rows
#   values        the values of options: hex, numbers, names, marks, times, files; bad use
#   files         files that are written whole or not at all
#   certificates  the little of a certificate's DER that a question needs
#   questions     the octets of a question, its values out of range, its rows
#   slips         a slip's rules, and what it says in words
#   places        the rules of a cache and its places
#   programs      desk, room and trial: built, run, and held to what they may write
#   headers       the headers of elements, and what keeps one from being read
#   layout        the layout of a response as data, with the names of RFC 6960
#   boxes         octets of a response with a name; what is expected and found there
#   walk          the walk by the layout to the place where a response breaks
#   misfits       that place in words and in lines of hex
#   cells         boxes as a picture shows them: labels, sizes and places
#   pictures      the picture of a response, in SVG
#   answers       a slip worded; a question asked of desk, and its answer in words
#   rooms         a room's cache and its file: made, listed, asked, filed in
#   options       the options, their parsers, the text of --help
#   given         what the options give: card, signer, clock, question
#   uses          the uses of ./ask, and its exit status
