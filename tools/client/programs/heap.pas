program heap;
{ A list on the heap, and blocks of it. }
type
  link = ^node;
  node = record
    value: longint;
    next: link;
  end;
  bytes = array [0..1999] of byte;
var
  first, here: link;
  number: integer;
  sum: longint;
  block, other: ^bytes;
begin
  first := nil;
  for number := 1 to 300 do
    begin
      new(here);
      here^.value := longint(number) * number;
      here^.next := first;
      first := here;
    end;
  sum := 0;
  number := 0;
  while first <> nil do
    begin
      here := first;
      sum := sum + here^.value;
      inc(number);
      first := here^.next;
      dispose(here);
    end;
  writeln(number, ' ', sum);
  getmem(block, sizeof(bytes));
  getmem(other, sizeof(bytes));
  fillchar(block^, sizeof(bytes), 7);
  other^ := block^;
  other^[1999] := 9;
  sum := 0;
  for number := 0 to 1999 do
    sum := sum + block^[number] + other^[number];
  writeln(sum);
  freemem(other, sizeof(bytes));
  freemem(block, sizeof(bytes));
end.
