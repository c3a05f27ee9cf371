"""Random C programs with arithmetic on addresses, whose output and whose reports are known.

Each program stores into persistent objects, flushes, fences and checks. What it stores where follows from its text, and `model` computes from
that which bytes each check must report. Numbers and addresses take detours first: through stack arrays, structs by value, unions, bit-fields,
variable arguments, function pointers, copies of parts, strings, 128 bits, floating-point numbers, goto, recursion and `longjmp`. A detour
returns its argument, so a tool that translates one wrongly changes the output or the reports."""
