// A board 600 x 400 x 18 mm with hinge bores, pin rows, dowels, a pocket and more, for gmsh's OpenCASCADE kernel.
//   gmsh board.geo -0 -o board.step                            the board
//   gmsh board.geo -setnumber pegs 216 -0 -o pegs.step         a board with 216 bores of 5 mm in place of all that
// examples/board.bores lists its bores by these measures.
SetFactory("OpenCASCADE");
DefineConstant[ pegs = 0 ];
Box(1) = {0, 0, 0, 600, 400, 18};
n = 100;

If (pegs > 0)
  // 18 columns, 32 mm apart, of 12 mm depth
  For k In {0:pegs - 1}
    n += 1; Cylinder(n) = {28 + 32 * (k % 18), 24 + 32 * Floor(k / 18), 6, 0, 0, 20, 2.5};
  EndFor
Else
  // two hinges: a cup of 35, 13 deep, and two screws of 2.5, 11 deep
  For k In {0:1}
    y = 100 + 200 * k;
    n += 1; Cylinder(n) = {22.5, y, 5, 0, 0, 20, 17.5};
    n += 1; Cylinder(n) = {32, y - 22.5, 7, 0, 0, 20, 1.25};
    n += 1; Cylinder(n) = {32, y + 22.5, 7, 0, 0, 20, 1.25};
  EndFor
  // two rows of pins of 5, 12 deep, 32 mm apart
  For k In {0:8}
    n += 1; Cylinder(n) = { 69, 72 + 32 * k, 6, 0, 0, 20, 2.5};
    n += 1; Cylinder(n) = {531, 72 + 32 * k, 6, 0, 0, 20, 2.5};
  EndFor
  // three dowels of 8 in the left side, 30 deep, and in the right, 25.5 deep
  For k In {0:2}
    n += 1; Cylinder(n) = {-1, 50 + 150 * k, 9, 31, 0, 0, 4};
    n += 1; Cylinder(n) = {601, 50 + 150 * k, 9, -26.5, 0, 0, 4};
  EndFor
  // a bore of 60 for cables, right through
  n += 1; Cylinder(n) = {300, 340, -1, 0, 0, 20, 30};
  // a cam of 15 in the lower face, 12.7 deep
  n += 1; Cylinder(n) = {120, 40, -1, 0, 0, 13.7, 7.5};
  // a stepped bore: 20, 5 deep, and within it 8, right through
  n += 1; Cylinder(n) = {200, 60, 13, 0, 0, 10, 10};
  n += 1; Cylinder(n) = {200, 60, -1, 0, 0, 20, 4};
  // a pocket 120 x 60, 6 deep, its corners of radius 8
  s = newreg; Rectangle(s) = {240, 170, 12, 120, 60, 8};
  out() = Extrude {0, 0, 10} { Surface{s}; };
  n += 1; pocket = out(1);
EndIf

If (pegs > 0)
  BooleanDifference{ Volume{1}; Delete; }{ Volume{101:n}; Delete; }
Else
  BooleanDifference{ Volume{1}; Delete; }{ Volume{101:n - 1}; Volume{pocket}; Delete; }
  Recursive Delete { Surface{s}; }
EndIf
