program units;
{ A unit with a beginning and an end, and virtual methods. }
uses
  figures;
var
  some: array [1..3] of pointer_to_figure;
  number: integer;
begin
  some[1] := new(pointer_to_figure, init(5));
  some[2] := new(pointer_to_named, init(3, 'triangle'));
  some[3] := new(pointer_to_named, init(4, 'square'));
  for number := 1 to 3 do
    writeln(some[number]^.name);
  for number := 2 to 3 do
    dispose(some[number], done);
end.
