#!/usr/bin/env python3
"""retarget.py CLANG TRIPLE IN.ll OUT.ll WIDE.h: makes IR that was emitted for x86-64 into IR for a 32-bit target.

It refuses IR whose meaning could change on the way: each line must be of a form that is known here. Memory stays as it is
on x86-64, byte for byte: a pointer has 32 bits on the target, and 32 more of 0 behind it in memory. A run on the target is
then a run on an x86-64 whose objects all lie below 4 GB. So it has lengths and offsets of 64 bits, and fields at the
offsets that they have there.

It changes the data layout and the triple, removes the attributes of x86, keeps the functions of APART out of line, and
renames each exported call NAME to wide_NAME: a slice is a pointer and a length of 64 bits there. WIDE.h declares those
for shim.c, which has the calls of planner.h.
"""
import re
import subprocess
import sys

# Inlined these would have their frames, each with copies of a table, on the stack at once; apart they use the same stack
# one after the other.
APART = ['reader::read', 'rules::make', 'search::search', 'route::read_route']

# Tag_ABI_VFP_args: no float is passed, so the calls are the same under either float ABI. Without this the linker refuses
# firmware with hard floats.
EITHER_FLOAT_ABI = 'module asm ".eabi_attribute 28, 3"\n'

C_TYPES = {
    'void': 'void', 'i1': '_Bool', 'i8': 'uint8_t', 'i16': 'uint16_t', 'i32': 'uint32_t', 'i64': 'uint64_t',
    'ptr': 'const void *',
}

# The bytes of what is loaded and stored, on x86-64, and its alignment in a struct.
BYTES = {'i8': 1, 'i16': 2, 'i32': 4, 'i64': 8, 'ptr': 8}

OF_X86 = r' "(?:target-cpu|target-features|tune-cpu|probe-stack|stack-probe-size)"="[^"]*"'

# The forms of lines, in which a word in capitals stands for what WORDS has for it. A struct may be a value, of which only the
# members are looked at; in memory it may only be loaded. No call goes through a pointer, or to what is not compiled here.
WORDS = {
    'RESULT': r'(?:noundef )?(?:zeroext )?(?:void|ANY)',
    'PARAMETER': r'ANY(?: noundef)?(?: zeroext)? NAME',
    'ANY': r'(?:i1|STORED|STRUCT)',
    'STRUCT': r'\{ STORED(?:, STORED)* \}',
    'STORED': r'(?:%s)' % '|'.join(BYTES),
    'NUMBER': r'(?:i1|i8|i16|i32|i64)',
    'VALUE': r'(?:NAME|@[\w.]+|-?\d+|true|false|null|poison)',
    'LABEL': r'%(?:[\w.]+|"[^"]*")',
    'NAME': r'%[\w.]+',
    'FUNCTION': r'@(?:"[^"]*"|[\w.]+)',
}
FORMS = r'''
(?:;.*)?
source_filename = ".*"
target datalayout = "e-m:e-p270:32:32-p271:32:32-p272:64:64-i64:64-.*"
target triple = "x86_64-.*"
@[\w.]+ = private unnamed_addr constant \[\d+ x i8\] (?:c".*"|zeroinitializer), align \d+
define (?:internal )?RESULT FUNCTION\((?:PARAMETER(?:, PARAMETER)*)?\) #\d+ \{
\}
declare void @llvm\.(?:memset\.p0\.i64|memmove\.p0\.p0\.i64|memcpy\.p0\.p0\.i64|trap)\(.*\) #\d+
attributes #\d+ = \{[\w(): ]*\}
!(?:llvm\.ident|\d+) = !\{.*\}
(?:[\w.]+|"[^"]*"):(?: *;.*)?
  NAME = alloca (?:STORED|\[\d+ x i8\]), align \d+
  NAME = load STORED, ptr VALUE, align \d+(?:, !(?:range|noundef) !\d+)*
  NAME = load STRUCT, ptr VALUE, align \d+
  store STORED VALUE, ptr VALUE, align \d+
  NAME = getelementptr(?: inbounds| nuw| nusw)* i8, ptr VALUE, i64 VALUE
  NAME = ptrtoaddr ptr VALUE to i64
  NAME = (?:add|sub|mul|udiv|sdiv|urem|srem|shl|lshr|ashr|and|or|xor)(?: nuw| nsw)* NUMBER VALUE, VALUE
  NAME = icmp \w+ (?:NUMBER|ptr) VALUE, VALUE
  NAME = (?:zext|sext|trunc) NUMBER VALUE to NUMBER
  NAME = select i1 VALUE, ANY VALUE, ANY VALUE
  NAME = phi ANY \[ VALUE, LABEL \](?:, \[ VALUE, LABEL \])*
  NAME = extractvalue STRUCT VALUE, \d+
  NAME = insertvalue STRUCT VALUE, STORED VALUE, \d+
  (?:NAME = )?call (?:void|ANY) FUNCTION\((?:ANY VALUE(?:, ANY VALUE)*)?\)
  ret (?:void|ANY VALUE)
  br (?:i1 VALUE, label LABEL, )?label LABEL
  switch NUMBER VALUE, label LABEL \[
    NUMBER -?\d+, label LABEL
  \]
  unreachable
'''


def need(holds, why):
    if not holds:
        sys.exit('retarget: ' + why)


def refuse_unportable(ir):
    """What the forms say by themselves: integers have 64 bits at most; there are no vectors, floats, atomics and volatile
    accesses; no pointer is in a constant; none is made a number but for its address; an object is reached by a byte offset;
    alignments do not come from the layout."""
    form = FORMS.strip().replace('\n', '|')
    for word, meaning in WORDS.items():
        form = form.replace(word, meaning)
    known = re.compile(form)
    for line in ir.splitlines():
        need(known.fullmatch(line), 'not of a known form: ' + line)


def keep_layout(ir):
    """Memory as it is on x86-64."""
    need(not re.search(r'%[\w.]+\.(at|part|with)\d|%high\d', ir), 'a name of those that are made here')
    ir = re.sub(r' = alloca ptr, ', ' = alloca [8 x i8], ', ir)
    high = 0

    def zeroed(match):
        nonlocal high
        high += 1
        at, align = match.group(1), min(int(match.group(2)), 4)
        return match.group(0) + (f'\n  %high{high} = getelementptr i8, ptr {at}, i64 4'
                                 f'\n  store i32 0, ptr %high{high}, align {align}')

    def split(match):
        name, struct, place, align = match.groups()
        lines, whole, offset = [], 'poison', 0
        kinds = struct[2:-2].split(', ')
        for i, kind in enumerate(kinds):
            offset += -offset % BYTES[kind]
            known = min(int(align), offset & -offset or int(align))
            lines.append(f'  {name}.at{i} = getelementptr i8, ptr {place}, i64 {offset}')
            lines.append(f'  {name}.part{i} = load {kind}, ptr {name}.at{i}, align {known}')
            more = f'{name}.with{i}' if i + 1 < len(kinds) else name
            lines.append(f'  {more} = insertvalue {struct} {whole}, {kind} {name}.part{i}, {i}')
            whole, offset = more, offset + BYTES[kind]
        return '\n'.join(lines)

    ir = re.sub(r'^  store ptr \S+, ptr (\S+), align (\d+)$', zeroed, ir, flags=re.M)
    ir = re.sub(r'^  (\S+) = load (\{.*\}), ptr (\S+), align (\d+)$', split, ir, flags=re.M)
    return re.sub(r'^  (\S+) = ptrtoaddr ptr (\S+) to i64$',
                  r'  \1.part0 = ptrtoaddr ptr \2 to i32' '\n' r'  \1 = zext i32 \1.part0 to i64', ir, flags=re.M)


def layout_and_triple(clang, triple):
    command = [clang, '--no-default-config', '--target=' + triple, '-S', '-emit-llvm', '-x', 'c', '-', '-o', '-']
    empty = subprocess.run(command, input='', check=True, capture_output=True, text=True).stdout
    layout, triple = (re.search(r'^target %s = .*$' % word, empty, re.M).group(0) for word in ('datalayout', 'triple'))
    need(re.match(r'target datalayout = "e-.*p:32:32-.*i64:64-', layout),
         'not little-endian with pointers of 32 bits and i64 aligned by 8: ' + layout)
    return layout, triple


def keep_apart(ir, name):
    head = r'^(define internal [^@]*@"%s"\(.*\)) (#\d+ \{)$' % re.escape(name)
    ir, count = re.subn(head, r'\1 noinline \2', ir, flags=re.M)
    need(count == 1, 'APART names %s, which is not in the bitcode' % name)
    return ir


def rename_exports(ir):
    """On Arm the callee extends a result of less than 32 bits to the register, which the IR leaves open: `zeroext`."""
    prototypes = []

    def rename(match):
        result, name, parameters = match.groups()
        types = [parameter.split()[0] for parameter in parameters.split(', ') if parameter]
        for kind in [result] + types:
            need(kind in C_TYPES, '%s has the type %s, for which there is no rule' % (name, kind))
        declared = ', '.join(C_TYPES[kind] for kind in types) or 'void'
        prototypes.append('%s wide_%s(%s);\n' % (C_TYPES[result], name, declared))
        extended = 'zeroext ' if result in ('i1', 'i8', 'i16') else ''
        return 'define hidden %s%s @wide_%s(%s)' % (extended, result, name, parameters)

    ir = re.sub(r'^define (?!internal)(?:noundef )?(?:zeroext )?(\S+) @(\w+)\(([^)]*)\)', rename, ir, flags=re.M)
    need(prototypes and not re.search(r'^define (?!internal|hidden)', ir, re.M),
         'an exported call is not of the known form')
    return ir, prototypes


def main(clang, triple, source, target, header):
    with open(source) as file:
        ir = file.read()
    ir = re.sub(OF_X86, '', ir)
    refuse_unportable(ir)
    ir = keep_layout(ir)
    for line in layout_and_triple(clang, triple):
        ir, count = re.subn(r'^%s = .*$' % line.split(' = ')[0], line, ir, flags=re.M)
        need(count == 1, 'no line for ' + line)
    need('x86' not in ir, 'something of x86 is left')
    for name in APART:
        ir = keep_apart(ir, name)
    ir, prototypes = rename_exports(ir)
    with open(target, 'w') as file:
        file.write(ir + EITHER_FLOAT_ABI)
    with open(header, 'w') as file:
        file.write('/* Written by unit/retarget.py: the exported calls as the bitcode has them. */\n')
        file.write('#include <stdint.h>\n' + ''.join(prototypes))


if __name__ == '__main__':
    main(*sys.argv[1:])
