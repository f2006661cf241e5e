"""Names that a timetable may have and that markup, scripts or terminals would take for more than a name."""
HOSTILE = [
    '</script><img src=x onerror=hurt()>', '<!--<script>', '<script>hurt()</script>', '"><svg onload=hurt()>', "' onfocus='hurt()",
    'a\u2028hurt()//', 'a\u2029hurt()//', '&lt;img src=x onerror=hurt()&gt;', ']]><script>hurt()</script>', '--><img src=x onerror=hurt()>',
    '</title></style></select></svg><script>hurt()</script>', '${hurt()}', "';hurt();'", '\\u003cscript>hurt()</script>', '{{hurt()}}',
    'a\x00b\x01c\x1b[2Jd\x7fe\x9bf', 'one\ntwo', '\u202eesrever', 'Zürich HB – 東京 🚆', '\ufffe\uffff', '__proto__', '#1', ';', '"', '%3Cscript%3E',
]
