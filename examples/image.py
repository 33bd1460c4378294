"""Assemblies from plain text, for the examples. What is written here of ECMA-335 was taken from the standard once more, and
not from the program's own tables, so that the two check each other.

A recipe has one thing a line (or behind `;`), and `#` begins a comment:

    plus                        PE32+ instead of PE32
    heaps 1                     bits of HeapSizes: wide indexes of #Strings 1, #GUID 2, #Blob 4
    strings \\0m.dll\\0A\\0        the heap #Strings; \\0 and \\xNN are bytes
    blobs 00 02 06 08           the heap #Blob, in hexadecimal; also `users`, `guids` and `bodies`
    TypeDef 0 "A" "Ns" TypeRef:1 1 1
                                a row: the cells of its columns in the standard's order
    Field 0 0 1 to 65535        rows like this one, until the table has so many
    set TypeDef 3 FieldList 2   another cell in a row
    cut 100                     only the first bytes of the image
    put 0x129 00 ff             other bytes in the image, from a place on

A cell is a number; `"text"`, which is looked for in #Strings, and else put there; `[06 08]`, a blob of these bytes, which
is put into #Blob; `TypeRef:1`, a row as the column names it; `@0`, the RVA of a byte of the bodies; or `n`, how many rows
the table has before this one.
"""
import re, struct

# II.22: a number of so many bytes; S, G and B for indexes of #Strings, #GUID and #Blob; a table, or a coded index.
TABLES = """
00 Module: Generation 2, Name S, Mvid G, EncId G, EncBaseId G
01 TypeRef: ResolutionScope ResolutionScope, TypeName S, TypeNamespace S
02 TypeDef: Flags 4, TypeName S, TypeNamespace S, Extends TypeDefOrRef, FieldList Field, MethodList MethodDef
04 Field: Flags 2, Name S, Signature B
06 MethodDef: RVA 4, ImplFlags 2, Flags 2, Name S, Signature B, ParamList Param
08 Param: Flags 2, Sequence 2, Name S
09 InterfaceImpl: Class TypeDef, Interface TypeDefOrRef
0a MemberRef: Class MemberRefParent, Name S, Signature B
0b Constant: Type 1, Padding 1, Parent HasConstant, Value B
0c CustomAttribute: Parent HasCustomAttribute, Type CustomAttributeType, Value B
0d FieldMarshal: Parent HasFieldMarshal, NativeType B
0e DeclSecurity: Action 2, Parent HasDeclSecurity, PermissionSet B
0f ClassLayout: PackingSize 2, ClassSize 4, Parent TypeDef
10 FieldLayout: Offset 4, Field Field
11 StandAloneSig: Signature B
12 EventMap: Parent TypeDef, EventList Event
14 Event: EventFlags 2, Name S, EventType TypeDefOrRef
15 PropertyMap: Parent TypeDef, PropertyList Property
17 Property: Flags 2, Name S, Type B
18 MethodSemantics: Semantics 2, Method MethodDef, Association HasSemantics
19 MethodImpl: Class TypeDef, MethodBody MethodDefOrRef, MethodDeclaration MethodDefOrRef
1a ModuleRef: Name S
1b TypeSpec: Signature B
1c ImplMap: MappingFlags 2, MemberForwarded MemberForwarded, ImportName S, ImportScope ModuleRef
1d FieldRVA: RVA 4, Field Field
20 Assembly: HashAlgId 4, MajorVersion 2, MinorVersion 2, BuildNumber 2, RevisionNumber 2, Flags 4, PublicKey B, Name S, Culture S
21 AssemblyProcessor: Processor 4
22 AssemblyOS: OSPlatformID 4, OSMajorVersion 4, OSMinorVersion 4
23 AssemblyRef: MajorVersion 2, MinorVersion 2, BuildNumber 2, RevisionNumber 2, Flags 4, PublicKeyOrToken B, Name S, Culture S, HashValue B
24 AssemblyRefProcessor: Processor 4, AssemblyRef AssemblyRef
25 AssemblyRefOS: OSPlatformId 4, OSMajorVersion 4, OSMinorVersion 4, AssemblyRef AssemblyRef
26 File: Flags 4, Name S, HashValue B
27 ExportedType: Flags 4, TypeDefId 4, TypeName S, TypeNamespace S, Implementation Implementation
28 ManifestResource: Offset 4, Flags 4, Name S, Implementation Implementation
29 NestedClass: NestedClass TypeDef, EnclosingClass TypeDef
2a GenericParam: Number 2, Flags 2, Owner TypeOrMethodDef, Name S
2b MethodSpec: Method MethodDefOrRef, Instantiation B
2c GenericParamConstraint: Owner GenericParam, Constraint TypeDefOrRef
"""

# II.24.2.6: the bits of the tag, and the tables by tag from 0.
CODED = """
TypeDefOrRef 2: TypeDef TypeRef TypeSpec
HasConstant 2: Field Param Property
HasCustomAttribute 5: MethodDef Field TypeRef TypeDef Param InterfaceImpl MemberRef Module DeclSecurity Property Event
    StandAloneSig ModuleRef TypeSpec Assembly AssemblyRef File ExportedType ManifestResource GenericParam
    GenericParamConstraint MethodSpec
HasFieldMarshal 1: Field Param
HasDeclSecurity 2: TypeDef MethodDef Assembly
MemberRefParent 3: TypeDef TypeRef ModuleRef MethodDef TypeSpec
HasSemantics 1: Event Property
MethodDefOrRef 1: MethodDef MemberRef
MemberForwarded 1: Field MethodDef
Implementation 2: File AssemblyRef ExportedType
CustomAttributeType 3: - - MethodDef MemberRef -
ResolutionScope 2: Module ModuleRef AssemblyRef TypeRef
TypeOrMethodDef 1: TypeDef MethodDef
"""


def read_tables():
    """The number of each table, and its columns: pairs of a name and what the column holds."""
    tables = {}
    for number, name, columns in re.findall(r'^(..) (\w+): (.*)$', TABLES, re.M):
        tables[name] = int(number, 16), [column.split() for column in columns.split(', ')]
    return tables


def read_coded():
    """The bits of each coded index, and its tables by tag."""
    text = CODED.replace('\n    ', ' ')
    return {name: (int(bits), tables.split()) for name, bits, tables in re.findall(r'^(\w+) (\d): (.*)$', text, re.M)}


SCHEMA, CODED_INDEXES = read_tables(), read_coded()


def unescaped(text):
    """The bytes of a text with \\0 and \\xNN."""
    out = b''
    for piece in re.split(r'(\\0|\\x[0-9a-fA-F]{2})', text):
        if piece == '\\0':
            out += b'\0'
        elif piece.startswith('\\x'):
            out += bytes([int(piece[2:], 16)])
        else:
            out += piece.encode()
    return out


def padded(data, least=0):
    data = data or bytes(least)
    return data + bytes(-len(data) % 4)


def structure(length, *fields):
    """Bytes with numbers in them: place, width, number."""
    out = bytearray(length)
    for place, width, number in fields:
        out[place:place + width] = number.to_bytes(width, 'little')
    return bytes(out)


class Image:
    """An assembly that is being made."""

    def __init__(self):
        self.plus, self.heaps = False, 0
        self.strings, self.blobs, self.users, self.guids, self.bodies = b'\0', b'\0', b'', bytes(16), b''
        self.rows = {name: [] for name in SCHEMA}  # pairs: the cells, and how many rows have them
        self.changes = []

    def count(self, table):
        return sum(times for _, times in self.rows[table])

    def text(self, text):
        """The index of a text in #Strings."""
        wanted = unescaped(text) + b'\0'
        if wanted == b'\0':
            return 0
        found = self.strings.find(b'\0' + wanted)
        if found < 0:
            found = len(self.strings) - 1
            self.strings += wanted
        return found + 1

    def blob(self, data):
        assert len(data) < 128, 'a longer blob has a longer length'
        self.blobs += bytes([len(data)]) + data
        return len(self.blobs) - len(data) - 1

    def cell(self, table, column, word):
        holds = SCHEMA[table][1][column][1]
        if word[0] == '"':
            return self.text(word[1:-1])
        if word[0] == '[':
            return self.blob(bytes.fromhex(word[1:-1]))
        if word[0] == '@':
            return word
        if ':' in word:
            named, row = word.split(':')
            if holds not in CODED_INDEXES:
                assert holds == named, word
                return int(row)
            bits, tables = CODED_INDEXES[holds]
            return (int(row) << bits) + tables.index(named)
        return int(word, 0)

    def row(self, table, words):
        """Adds a row, or rows like it."""
        first = self.count(table)
        times = 1
        if len(words) > 1 and words[-2] == 'to':
            times = int(words[-1]) - first
            words = words[:-2]
        assert len(words) == len(SCHEMA[table][1]), (table, words)
        cells = [word if word == 'n' else self.cell(table, k, word) for k, word in enumerate(words)]
        if 'n' in cells:
            pieces = [([n if cell == 'n' else cell for cell in cells], 1) for n in range(first, first + times)]
        else:
            pieces = [(cells, times)]
        self.rows[table] += pieces

    def set(self, table, row, column, word):
        """Puts another cell into a row."""
        place = [name for name, _ in SCHEMA[table][1]].index(column)
        before = int(row) - 1
        for k, (cells, times) in enumerate(self.rows[table]):
            if before < times:
                break
            before -= times
        other = cells[:place] + [self.cell(table, place, word)] + cells[place + 1:]
        pieces = [(cells, before), (other, 1), (cells, times - before - 1)]
        self.rows[table][k:k + 1] = [piece for piece in pieces if piece[1] > 0]

    def read(self, text):
        """Does what the lines of a recipe say."""
        for line in re.split(r'[;\n]', re.sub(r'(^|\s)#(?=\s).*', '', text, flags=re.M)):
            word, _, rest = line.strip().partition(' ')
            if word in ('blobs', 'users', 'guids', 'bodies'):
                setattr(self, word, bytes.fromhex(rest))
            elif word == 'strings':
                self.strings = unescaped(rest.strip())
            elif word == 'plus':
                self.plus = True
            elif word == 'heaps':
                self.heaps = int(rest)
            elif word in ('cut', 'put'):
                self.changes.append((word, rest.split()))
            elif word == 'set':
                self.set(*rest.split(None, 3))
            elif word:
                self.row(word, re.findall(r'"[^"]*"|\[[^]]*\]|\S+', rest))

    def width(self, holds, heaps):
        if holds.isdigit():
            return int(holds)
        if len(holds) == 1:
            return 4 if heaps & {'S': 1, 'G': 2, 'B': 4}[holds] else 2
        bits, tables = CODED_INDEXES.get(holds, (0, [holds]))
        return 4 if any(self.count(t) >= 1 << (16 - bits) for t in tables if t != '-') else 2

    def tables(self, metadata_len):
        """The stream #~ (II.24.2.6)."""
        heaps = self.heaps
        for bit, heap in ((1, self.strings), (2, self.guids), (4, self.blobs)):
            heaps |= bit if len(heap) >= 65536 else 0
        present = [name for name in SCHEMA if self.rows[name]]
        valid = sum(1 << SCHEMA[name][0] for name in present)
        out = bytearray(struct.pack('<IBBBBQQ', 0, 2, 0, heaps, 1, valid, 0))
        for name in present:
            out += struct.pack('<I', self.count(name))
        for name in present:
            widths = [self.width(holds, heaps) for _, holds in SCHEMA[name][1]]
            for cells, times in self.rows[name]:
                row = b''
                for cell, width in zip(cells, widths):
                    if isinstance(cell, str):
                        cell = 0x2048 + metadata_len + int(cell[1:])
                    row += cell.to_bytes(width, 'little')
                out += row * times
        return bytes(out)

    def metadata(self):
        """The root and its streams (II.24.2), with the RVAs of bodies behind them."""
        others = padded(self.strings), padded(self.users, 4), padded(self.guids), padded(self.blobs, 4)
        length = 0x6c + len(padded(self.tables(0))) + sum(map(len, others))
        streams = padded(self.tables(length)), *others
        out = b'BSJB\1\0\1\0' + bytes(4) + b'\x0c\0\0\0v4.0.30319\0\0' + b'\0\0\5\0'
        place = 0x6c
        for name, stream in zip((b'#~', b'#Strings', b'#US', b'#GUID', b'#Blob'), streams):
            out += struct.pack('<II', place, len(stream)) + padded(name + b'\0')
            place += len(stream)
        return out + b''.join(streams)

    def bytes(self):
        """The file (II.25): headers, one section, the metadata, the bodies."""
        metadata = self.metadata()
        length = 72 + len(metadata) + len(self.bodies)
        optional, directories, magic = (240, 112, 0x20b) if self.plus else (224, 96, 0x10b)
        out = structure(64, (0, 2, 0x5a4d), (60, 4, 64))
        out += structure(24, (0, 2, 0x4550), (4, 2, 0x14c), (6, 2, 1), (20, 2, optional), (22, 2, 0x2102))
        out += structure(optional, (0, 2, magic), (32, 4, 0x2000), (36, 4, 0x200), (directories - 4, 4, 16),
                         (directories + 112, 4, 0x2000), (directories + 116, 4, 72))
        out += b'.text\0\0\0' + structure(32, (0, 4, length), (4, 4, 0x2000), (8, 4, length), (12, 4, 0x200))
        out = out.ljust(0x200, b'\0')
        out += structure(72, (0, 4, 72), (4, 2, 2), (6, 2, 5), (8, 4, 0x2048), (12, 4, len(metadata)), (16, 4, 1))
        return changed(out + metadata + self.bodies, self.changes)


def changed(image, changes):
    """An image that is cut, or has other bytes."""
    for word, rest in changes:
        if word == 'cut':
            image = image[:int(rest[0], 0)]
        else:
            place, new = int(rest[0], 0), bytes.fromhex(''.join(rest[1:]))
            assert place + len(new) <= len(image), rest
            image = image[:place] + new + image[place + len(new):]
    return image


def image_of(*recipes):
    """The image that recipes make, one after the other."""
    image = Image()
    for recipe in recipes:
        image.read(recipe)
    return image.bytes()
