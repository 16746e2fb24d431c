program excepts;
{ Exceptions, and what SysUtils does with text. }
{$mode objfpc}{$H+}
uses
  SysUtils;
type
  ERefused = class(Exception)
  end;
var
  number: longint;

procedure attempt(which: integer);
begin
  try
    try
      case which of
        1: raise ERefused.Create('first');
        2: raise EConvertError.Create('no ' + IntToStr(which));
        3: writeln(100 div (which - 3));
      else
        writeln('nothing');
      end;
    finally
      write('finally; ');
    end;
  except
    on problem: ERefused do
      writeln('refused: ', problem.Message);
    on problem: EConvertError do
      writeln(problem.ClassName, ': ', problem.Message);
    on EDivByZero do
      writeln('divided by zero');
  end;
end;

begin
  for number := 1 to 3 do
    attempt(number);
  writeln(Format('%d %5d|%-5d|%s %x', [1, 22, 333, 'four', 255]));
  writeln(TryStrToInt('-77', number), ' ', number, ' ', TryStrToInt('7-', number));
  writeln(UpperCase('abc'), ' ', Trim('  d e '), ' ', IntToHex(48879, 8));
  writeln(StringReplace('a-b-c', '-', '+', [rfReplaceAll]));
end.
