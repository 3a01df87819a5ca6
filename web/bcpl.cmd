@rem bcpl ARGUMENTS: bcpl.mjs from the command line of Windows.
@node "%~dp0bcpl.mjs" %*
