program recurse;
{ Functions that call themselves and each other, and one inside another. }
function ackermann(m, n: integer): integer;
begin
  if m = 0 then
    ackermann := n + 1
  else if n = 0 then
    ackermann := ackermann(m - 1, 1)
  else
    ackermann := ackermann(m - 1, ackermann(m, n - 1));
end;

function is_odd(n: integer): boolean; forward;

function is_even(n: integer): boolean;
begin
  is_even := (n = 0) or is_odd(n - 1);
end;

function is_odd(n: integer): boolean;
begin
  is_odd := (n <> 0) and is_even(n - 1);
end;

procedure permutations(letters: string);
var
  count: integer;

  procedure continue_with(front, rest: string);
  var
    at: integer;
  begin
    if rest = '' then
      begin
        inc(count);
        write(front, ' ');
      end;
    for at := 1 to length(rest) do
      continue_with(front + rest[at], copy(rest, 1, at - 1) + copy(rest, at + 1, 255));
  end;

begin
  count := 0;
  continue_with('', letters);
  writeln(count);
end;

function moves(disks: integer; from, onto, over: char): longint;
begin
  if disks = 0 then
    moves := 0
  else
    moves := moves(disks - 1, from, over, onto) + 1 + moves(disks - 1, over, onto, from);
end;

begin
  writeln(ackermann(2, 9), ' ', is_even(100), ' ', is_odd(100));
  permutations('abc');
  writeln(moves(12, 'a', 'b', 'c'));
end.
