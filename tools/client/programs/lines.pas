program lines;
{ Lines of text and their widths. }
var
  width: integer;
begin
  writeln('A first line.');
  write('In ', 'pieces, ', 1, ' and ', true, '.');
  writeln;
  for width := 1 to 4 do
    writeln('[', 'ab': width, '][', width: 3, ']');
  writeln('A quote '' and a backslash \ and ', chr(65), #66'C'#68, '.');
end.
