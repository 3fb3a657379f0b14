# Makes page.h of page.html: an array with each line as a C text.
s/\\/\\\\/g
s/"/\\"/g
s/.*/    "&\\n",/
1i\
static const char *const page_lines[] = {
$a\
};
