unit figures;
{ Objects with virtual methods, for the program units. }
interface

type
  figure = object
    sides: integer;
    constructor init(of_sides: integer);
    function name: string; virtual;
    destructor done; virtual;
  end;
  named = object(figure)
    given: string;
    constructor init(of_sides: integer; with_name: string);
    function name: string; virtual;
    destructor done; virtual;
  end;
  pointer_to_figure = ^figure;
  pointer_to_named = ^named;

var
  alive: integer;

implementation

var
  made: integer;

constructor figure.init(of_sides: integer);
begin
  sides := of_sides;
  inc(alive);
  inc(made);
end;

function figure.name: string;
var
  digits: string;
begin
  str(sides, digits);
  name := digits + '-gon';
end;

destructor figure.done;
begin
  dec(alive);
end;

constructor named.init(of_sides: integer; with_name: string);
begin
  inherited init(of_sides);
  given := with_name;
end;

function named.name: string;
begin
  name := given + ' (' + inherited name + ')';
end;

destructor named.done;
begin
  writeln('done with ', given);
  inherited done;
end;

initialization
  writeln('figures begins with ', alive);
finalization
  writeln('figures ends with ', alive, ' of ', made);
  { the output was flushed before units end }
  flush(output);
end.
