{ An interpreter of INTCODE, written from docs/porting.md in its order and with its names. It is tested, not proved.

    fpc -O2 -ointcode porting/pascal/intcode.pas
    intcode run --steps N [--in NAME=PATH].. [--to NAME=PATH].. TEXT..      the level full
    intcode TEXT                                                           the level core }
{$mode objfpc}{$H+}{$R-}{$Q-}
program intcode;

uses SysUtils, Termio;

{ ---- Words: the type Word has 16 bits, and an assignment to it reduces. }

function Signed(w: Word): LongInt;
begin
  Signed := SmallInt(w);
end;

procedure Stop(status: LongInt; const line: RawByteString);
begin
  if line <> '' then WriteLn(StdErr, 'bcpl: ', line);
  Halt(status);
end;

{ ---- Reading a text }

type
  Kind = (ALabel, AWord, AWordOfLabel, AByte, AnOperation, AnOperationOfLabel, AGlobal, AnEnd);

  { code is an operation's function and its bits; number and lab are what the item has of each. }
  Item = record
    what: Kind;
    code, number, lab: Word;
  end;

  Reader = object
    text: RawByteString;
    at: SizeInt;
    open: Boolean;
    function Ended: Boolean;
    function Next: Char;
    procedure Skip;
    procedure Fault(const name: String; place: SizeInt);
    function Number(least, most: LongInt): Word;
    function NumberOrLabel(var made: Item; mayBeLabel: Boolean): Boolean;
    procedure Read;
    procedure ReadAll(const bytes: RawByteString);
  end;

const
  Functions = 'LSAJTFKX';
  Primitives = '1 LIP2 X24 L0 X4 2 LIP2 X25 L0 X4 3 X26 X4 4 LIP2 X27 L0 X4 5 LIP2 X28 X4 6 LIP2 X29 X4 7 X33 L0 X4 8 X34 L0 X4 '
    + 'G11L1 G12L2 G13L3 G14L4 G15L5 G16L6 G17L7 G18L8 Z';

var
  items: array of Item;
  itemCount: LongInt = 0;

function Reader.Ended: Boolean;
begin
  Ended := at >= Length(text);
end;

{ The byte after those that were read. A text that ends here is inside an item. }
function Reader.Next: Char;
begin
  if Ended then Stop(1, 'text 4 Unended');
  Next := text[at + 1];
end;

procedure Reader.Fault(const name: String; place: SizeInt);
begin
  Stop(1, 'text ' + name + ' ' + IntToStr(place));
end;

procedure Reader.Skip;
begin
  while not Ended do
    case Next of
      ' ', #9, #13, #10, '$': Inc(at);
      '/': while not Ended and (Next <> #10) do Inc(at);
    else
      exit;
    end;
end;

{ A number without a sign if least is 0. Its value is taken modulo 65,536. }
function Reader.Number(least, most: LongInt): Word;
var
  first: SizeInt;
  sign, n: LongInt;
begin
  first := at;
  sign := 1;
  if (least < 0) and (Next = '-') then begin
    sign := -1;
    Inc(at);
  end;
  if not (Next in ['0'..'9']) then Fault('2 BadNumber', at);
  n := 0;
  while not Ended and (Next in ['0'..'9']) do begin
    n := 10 * n + sign * (Ord(Next) - Ord('0'));
    if (n < least) or (n > most) then Fault('2 BadNumber', first);
    Inc(at);
  end;
  Number := Word(n);
end;

{ A number, or, where a label may be, L and a label. Whether it was a label. }
function Reader.NumberOrLabel(var made: Item; mayBeLabel: Boolean): Boolean;
begin
  NumberOrLabel := mayBeLabel and (Next = 'L');
  if NumberOrLabel then begin
    Inc(at);
    made.lab := Number(0, 65535);
  end else
    made.number := Number(-32768, 65535);
end;

procedure Reader.Read;
var
  made: Item;
  c: Char;
begin
  made := Default(Item);
  c := Next;
  if c in ['0'..'9'] then begin
    made.what := ALabel;
    made.lab := Number(0, 65535);
  end else begin
    Inc(at);
    case c of
      'Z': made.what := AnEnd;
      'C': begin
        made.what := AByte;
        made.number := Number(0, 255);
      end;
      'D': if NumberOrLabel(made, True) then made.what := AWordOfLabel else made.what := AWord;
      'G': begin
        made.what := AGlobal;
        made.number := Number(0, 511);
        if Next <> 'L' then Fault('3 MissingLabel', at);
        Inc(at);
        made.lab := Number(0, 65535);
      end;
      'L', 'S', 'A', 'J', 'T', 'F', 'K', 'X': begin
        made.code := 8192 * (Pos(c, Functions) - 1);
        if Next = 'I' then begin
          made.code := made.code + 4096;
          Inc(at);
        end;
        made.what := AnOperation;
        case Next of
          'P', 'G': begin
            if Next = 'P' then made.code := made.code + 2048 else made.code := made.code + 1024;
            Inc(at);
            NumberOrLabel(made, False);
          end;
        else
          if NumberOrLabel(made, True) then made.what := AnOperationOfLabel;
        end;
      end;
    else
      Fault('1 BadCharacter', at - 1);
    end;
  end;
  if itemCount = Length(items) then SetLength(items, 2 * itemCount + 1000);
  items[itemCount] := made;
  Inc(itemCount);
  open := made.what <> AnEnd;
end;

procedure Reader.ReadAll(const bytes: RawByteString);
begin
  text := bytes;
  at := 0;
  open := False;
  Skip;
  while not Ended do begin
    Read;
    Skip;
  end;
  if open then Stop(1, 'text 4 Unended');
end;

{ ---- Placing }

var
  store: array[Word] of Word;
  stackBase: LongInt = 520;

{ The words of an item other than a byte. }
function Size(const made: Item): LongInt;
begin
  case made.what of
    AWord, AWordOfLabel: Size := 1;
    AnOperation: if made.number > 511 then Size := 2 else Size := 1;
    AnOperationOfLabel: Size := 2;
  else
    Size := 0;
  end;
end;

{ The address of each item: of a byte, that of the word that it shares. The address after the last is the stack base. }
procedure SetPlaces(var places: array of LongInt);
var
  i: LongInt;
  low: Boolean;
begin
  low := False;
  for i := 0 to itemCount - 1 do
    if items[i].what = AByte then begin
      places[i] := stackBase - Ord(low);
      if not low then Inc(stackBase);
      low := not low;
    end else begin
      low := False;
      places[i] := stackBase;
      stackBase := stackBase + Size(items[i]);
    end;
end;

{ In which segment each label was last set, and its address there. }
var
  setIn: array[Word] of LongInt;
  address: array[Word] of Word;

procedure RefuseTwice;
var
  i, segment: LongInt;
  isSet: array[0..511] of Boolean;
begin
  FillChar(setIn, SizeOf(setIn), 255);
  FillChar(isSet, SizeOf(isSet), 0);
  segment := 0;
  for i := 0 to itemCount - 1 do
    case items[i].what of
      AnEnd: Inc(segment);
      ALabel: begin
        if setIn[items[i].lab] = segment then Stop(1, 'link 2 LabelTwice ' + IntToStr(segment) + ' ' + IntToStr(items[i].lab));
        setIn[items[i].lab] := segment;
      end;
    end;
  for i := 0 to itemCount - 1 do
    if items[i].what = AGlobal then begin
      if isSet[items[i].number] then Stop(1, 'link 3 GlobalTwice ' + IntToStr(items[i].number));
      isSet[items[i].number] := True;
    end;
end;

procedure PutItem(const made: Item; at: Word; segment: LongInt);
var
  isOfLabel: Boolean;
  low: Word;
begin
  isOfLabel := made.what in [AWordOfLabel, AnOperationOfLabel, AGlobal];
  if isOfLabel and (setIn[made.lab] <> segment) then
    Stop(1, 'link 1 LabelUnset ' + IntToStr(segment) + ' ' + IntToStr(made.lab));
  if isOfLabel then low := address[made.lab] else low := made.number;
  case made.what of
    AWord, AWordOfLabel: store[at] := low;
    AGlobal: store[8 + made.number] := low;
    AnOperation, AnOperationOfLabel:
      if isOfLabel or (low > 511) then begin
        store[at] := made.code + 512;
        store[Word(at + 1)] := low;
      end else
        store[at] := made.code + low;
  end;
end;

procedure Link;
var
  places: array of LongInt;
  i, j, first, segment: LongInt;
begin
  RefuseTwice;
  SetLength(places, itemCount);
  SetPlaces(places);
  if stackBase > 65472 then Stop(1, 'link 4 TooLarge');
  store[0] := 5121;
  store[1] := 49154;
  store[2] := 57366;
  FillChar(setIn, SizeOf(setIn), 255);
  first := 0;
  segment := 0;
  for i := 0 to itemCount - 1 do
    case items[i].what of
      ALabel: begin
        setIn[items[i].lab] := segment;
        address[items[i].lab] := places[i];
      end;
      AByte: { The first of two bytes finds a word that is 0. }
        if (i > 0) and (items[i - 1].what = AByte) and (places[i - 1] = places[i]) then
          store[places[i]] := store[places[i]] + items[i].number
        else
          store[places[i]] := 256 * items[i].number;
      AnEnd: begin
        for j := first to i do PutItem(items[j], places[j], segment);
        first := i + 1;
        Inc(segment);
      end;
    end;
end;

{ ---- Streams }

const
  BufferSize = 8192;

type
  Ending = (Running, Finished, ZeroDivide, BadInstruction, BudgetSpent, Device);

  Stream = record
    name, path: RawByteString;
    handle: THandle;
    used, filled: LongInt;
    isOver: Boolean;
    buffer: array[0..BufferSize - 1] of Byte;
  end;
  PStream = ^Stream;
  Table = array of PStream;

var
  inputs, outputs: Table;
  input: LongInt = 1;
  output: LongInt = 1;
  isTerminal: Boolean;

procedure AddStream(var streams: Table; const name, path: RawByteString; handle: THandle);
var
  made: PStream;
begin
  New(made);
  made^ := Default(Stream);
  made^.name := name;
  made^.path := path;
  made^.handle := handle;
  SetLength(streams, Length(streams) + 1);
  streams[High(streams)] := made;
end;

function Flush(s: PStream): Boolean;
var
  done: LongInt;
begin
  Flush := True;
  s^.used := 0;
  while s^.used < s^.filled do begin
    done := FileWrite(s^.handle, s^.buffer[s^.used], s^.filled - s^.used);
    if done <= 0 then exit(False);
    s^.used := s^.used + done;
  end;
  s^.filled := 0;
end;

function Read(var a: Word): Ending;
var
  s: PStream;
begin
  Read := Running;
  a := 65535;
  if input = 0 then exit;
  s := inputs[input - 1];
  if s^.isOver then exit;
  if s^.used = s^.filled then begin
    if isTerminal and not Flush(outputs[0]) then exit(Device);
    s^.used := 0;
    s^.filled := FileRead(s^.handle, s^.buffer, BufferSize);
    s^.isOver := s^.filled = 0;
    if s^.isOver then exit;
    if s^.filled < 0 then exit(Device);
  end;
  a := s^.buffer[s^.used];
  Inc(s^.used);
end;

function Write(a: Word): Ending;
var
  s: PStream;
begin
  Write := Running;
  if output = 0 then exit;
  s := outputs[output - 1];
  if s^.isOver then exit;
  if (s^.filled = BufferSize) and not Flush(s) then exit(Device);
  s^.buffer[s^.filled] := a and 255;
  Inc(s^.filled);
end;

function EndOutput: Ending;
begin
  EndOutput := Running;
  if output = 0 then exit;
  if not Flush(outputs[output - 1]) then exit(Device);
  outputs[output - 1]^.isOver := True;
  output := 0;
end;

function Find(const streams: Table; a: Word): Word;
var
  i, n: LongInt;
  name: RawByteString;
begin
  name := '';
  for i := 1 to store[a] shr 8 do begin
    n := store[Word(a + i div 2)];
    if Odd(i) then name := name + Chr(n and 255) else name := name + Chr(n shr 8);
  end;
  for i := 0 to High(streams) do
    if streams[i]^.name = name then exit(i + 1);
  Find := 0;
end;

{ ---- Running }

var
  a, b, c, p: Word;
  began: Word;

procedure Switch;
var
  count, i, at: LongInt;
begin
  count := store[c];
  at := store[Word(c + 1)];
  for i := 1 to count do
    if store[Word(c + 2 * i)] = a then begin
      at := store[Word(c + 2 * i + 1)];
      break;
    end;
  c := at;
end;

function Truth(isTrue: Boolean): Word;
begin
  if isTrue then Truth := 65535 else Truth := 0;
end;

function Operation(d: Word): Ending;
begin
  Operation := Running;
  case d of
    1: a := store[a];
    2: a := -a;
    3: a := 65535 - a;
    4: begin
      c := store[Word(p + 1)];
      p := store[p];
    end;
    5: a := b * a;
    6, 7: begin
      if a = 0 then exit(ZeroDivide);
      if d = 6 then a := Signed(b) div Signed(a) else a := Signed(b) mod Signed(a);
    end;
    8: a := b + a;
    9: a := b - a;
    10: a := Truth(b = a);
    11: a := Truth(b <> a);
    12: a := Truth(Signed(b) < Signed(a));
    13: a := Truth(Signed(b) >= Signed(a));
    14: a := Truth(Signed(b) > Signed(a));
    15: a := Truth(Signed(b) <= Signed(a));
    16: if a >= 16 then a := 0 else a := b shl a;
    17: if a >= 16 then a := 0 else a := b shr a;
    18: a := b and a;
    19: a := b or a;
    20: a := b xor a;
    21: a := 65535 - (b xor a);
    22: Operation := Finished;
    23: Switch;
    24: if a <= Length(inputs) then input := a else input := 0;
    25: if a <= Length(outputs) then output := a else output := 0;
    26: Operation := Read(a);
    27: Operation := Write(a);
    28: a := Find(inputs, a);
    29: a := Find(outputs, a);
    33: begin
      if input <> 0 then inputs[input - 1]^.isOver := True;
      input := 0;
    end;
    34: Operation := EndOutput;
  else
    Operation := BadInstruction;
  end;
end;

function Step: Ending;
var
  w, d: Word;
begin
  Step := Running;
  began := c;
  w := store[c];
  c := c + 1;
  d := w and 511;
  if w and 512 <> 0 then begin
    d := store[c];
    c := c + 1;
  end;
  if w and 2048 <> 0 then d := d + p;
  if w and 1024 <> 0 then d := d + 8;
  if w and 4096 <> 0 then d := store[d];
  case w shr 13 of
    0: begin
      b := a;
      a := d;
    end;
    1: store[d] := a;
    2: a := a + d;
    3: c := d;
    4: if a <> 0 then c := d;
    5: if a = 0 then c := d;
    6: begin
      d := p + d;
      store[d] := p;
      store[Word(d + 1)] := c;
      p := d;
      c := a;
    end;
    7: Step := Operation(d);
  end;
end;

function Run(budget: QWord): Ending;
var
  i: LongInt;
begin
  a := 0;
  b := 0;
  c := 0;
  p := stackBase;
  Run := Running;
  while Run = Running do
    if budget = 0 then
      Run := BudgetSpent
    else begin
      Dec(budget);
      Run := Step;
    end;
  for i := 0 to High(outputs) do
    if not outputs[i]^.isOver and not Flush(outputs[i]) and (Run = Finished) then Run := Device;
end;

{ ---- The command line }

var
  steps: QWord = High(QWord);
  texts: array of RawByteString;

function IsDigits(const value: RawByteString; out number: QWord): Boolean;
var
  i: LongInt;
  digit: QWord;
begin
  number := 0;
  IsDigits := value <> '';
  for i := 1 to Length(value) do begin
    if not (value[i] in ['0'..'9']) then exit(False);
    digit := Ord(value[i]) - Ord('0');
    if (number > High(QWord) div 10) or ((number = High(QWord) div 10) and (digit > High(QWord) mod 10)) then exit(False);
    number := 10 * number + digit;
  end;
end;

{ Adds a stream as NAME=PATH has it. Without = it has no handle, and its whole value as its name. }
procedure AddNamed(var streams: Table; const value: RawByteString);
var
  at: SizeInt;
begin
  at := Pos('=', value);
  if at = 0 then
    AddStream(streams, value, '', THandle(-2))
  else
    AddStream(streams, Copy(value, 1, at - 1), Copy(value, at + 1, Length(value)), THandle(-1));
end;

procedure TakeArguments;
var
  i, given: LongInt;
  option, value: RawByteString;
begin
  i := 2;
  given := 0;
  while (i <= ParamCount) and (Copy(ParamStr(i), 1, 1) = '-') do begin
    option := ParamStr(i);
    value := ParamStr(i + 1);
    if (i = ParamCount) or (Copy(value, 1, 1) = '-') then Stop(3, 'arguments');
    case option of
      '--steps': begin
        if not IsDigits(value, steps) then Stop(3, 'arguments');
        Inc(given);
      end;
      '--in': AddNamed(inputs, value);
      '--to': AddNamed(outputs, value);
    else
      Stop(3, 'arguments');
    end;
    i := i + 2;
  end;
  if (given <> 1) or (i > ParamCount) then Stop(3, 'arguments');
  SetLength(texts, ParamCount - i + 1);
  for given := i to ParamCount do begin
    if Copy(ParamStr(given), 1, 1) = '-' then Stop(3, 'arguments');
    texts[given - i] := ParamStr(given);
  end;
end;

procedure RefuseUnnamed(const streams: Table);
var
  i: LongInt;
begin
  for i := 1 to High(streams) do
    if streams[i]^.handle = THandle(-2) then Stop(3, 'option ' + streams[i]^.name);
end;

procedure RefuseNames(const streams: Table);
var
  i, j: LongInt;
begin
  for i := 1 to High(streams) do begin
    if Length(streams[i]^.name) > 255 then Stop(1, 'streams 2 NameTooLong');
    for j := 0 to i - 1 do
      if streams[i]^.name = streams[j]^.name then Stop(1, 'streams 1 NameTwice');
  end;
end;

function Content(const path: RawByteString): RawByteString;
var
  handle: THandle;
  done: LongInt;
  block: array[0..65535] of Byte;
begin
  Content := '';
  handle := FileOpen(path, fmOpenRead or fmShareDenyNone);
  if handle = THandle(-1) then Stop(1, 'file ' + path);
  repeat
    done := FileRead(handle, block, SizeOf(block));
    if done < 0 then Stop(1, 'file ' + path);
    SetLength(Content, Length(Content) + done);
    if done > 0 then Move(block, Content[Length(Content) - done + 1], done);
  until done = 0;
  FileClose(handle);
end;

procedure OpenStreams;
var
  i: LongInt;
begin
  for i := 1 to High(inputs) do begin
    inputs[i]^.handle := FileOpen(inputs[i]^.path, fmOpenRead or fmShareDenyNone);
    { FileOpen refuses a directory. bcpl opens it, and ends by Device when it is read, as a read from no handle does. }
    if (inputs[i]^.handle = THandle(-1)) and not DirectoryExists(inputs[i]^.path) then Stop(1, 'file ' + inputs[i]^.path);
  end;
  for i := 1 to High(outputs) do begin
    outputs[i]^.handle := FileCreate(outputs[i]^.path);
    if outputs[i]^.handle = THandle(-1) then Stop(1, 'file ' + outputs[i]^.path);
  end;
end;

var
  source: Reader;
  contents: array of RawByteString;
  i: LongInt;
  line: String;

begin
  AddStream(inputs, 'SYSIN', '', StdInputHandle);
  AddStream(outputs, 'SYSPRINT', '', StdOutputHandle);
  isTerminal := IsATTY(StdOutputHandle) = 1;
  if (ParamCount = 1) and (ParamStr(1) <> 'run') then begin
    SetLength(texts, 1);
    texts[0] := ParamStr(1);
  end else begin
    if ParamStr(1) <> 'run' then Stop(3, 'arguments');
    TakeArguments;
    RefuseUnnamed(inputs);
    RefuseUnnamed(outputs);
  end;
  SetLength(contents, Length(texts));
  for i := 0 to High(texts) do contents[i] := Content(texts[i]);
  source.ReadAll(Primitives);
  for i := 0 to High(contents) do source.ReadAll(contents[i]);
  Link;
  OpenStreams;
  RefuseNames(inputs);
  RefuseNames(outputs);
  case Run(steps) of
    Finished: Halt(0);
    ZeroDivide: line := 'ZeroDivide';
    BadInstruction: line := 'BadInstruction ' + IntToStr(began);
    BudgetSpent: line := 'BudgetSpent';
    Device: line := 'Device';
  end;
  Stop(2, 'ended ' + line);
end.
