program records;
{ Records, one with variants, pointers to them, and arrays of them. }
type
  kinds = (circle, rectangle);
  point = record
    x, y: integer;
  end;
  shape = record
    name: string[9];
    at: point;
    case kind: kinds of
      circle: (radius: integer);
      rectangle: (width, height: integer);
  end;
  pointer_to_shape = ^shape;
const
  shapes: array [1..3] of shape = (
    (name: 'round'; at: (x: 1; y: 2); kind: circle; radius: 10),
    (name: 'flat'; at: (x: -3; y: 4); kind: rectangle; width: 20; height: 2),
    (name: 'square'; at: (x: 5; y: -6); kind: rectangle; width: 7; height: 7));
var
  number: integer;
  current: pointer_to_shape;
  copied: shape;

function size(const which: shape): longint;
begin
  with which do
    case kind of
      circle: size := 3 * radius * radius;
      rectangle: size := width * height;
    end;
end;

begin
  for number := 1 to 3 do
    begin
      current := @shapes[number];
      writeln(current^.name, ' at ', current^.at.x, ',', current^.at.y, ' has ', size(current^));
    end;
  copied := shapes[2];
  copied.height := 100;
  inc(shapes[3].at.x, 1000);
  writeln(size(copied), ' ', size(shapes[2]), ' ', shapes[3].at.x);
end.
