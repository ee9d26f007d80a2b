# Prints the block of code under the line "<!-- code: NAME -->" of a document, with NAME given by -v name.
$0 == "<!-- code: " name " -->" { wanted = 1; next }
wanted && /^```/ { if (inside) exit; inside = 1; next }
inside
