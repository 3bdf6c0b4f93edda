// probe-step: reads a STEP file with OpenCASCADE and writes its solids as plain text (docs/STEP.md, 'What probe-step writes'): for each
// solid its name, its surfaces, its vertices in place and its triangles with the surface that each belongs to, in millimetres.
//
//   probe-step FILE [LINEAR ANGULAR]    the deflections of the triangles: millimetres (0.05) and radians (0.35)
//
// Status 0: written; 1: the file cannot be read, with a line on standard error; 2: the call is wrong.
#include <BRepAdaptor_Surface.hxx>
#include <BRepMesh_IncrementalMesh.hxx>
#include <BRep_Tool.hxx>
#include <Message.hxx>
#include <Message_Messenger.hxx>
#include <Message_Printer.hxx>
#include <Poly_Triangulation.hxx>
#include <STEPCAFControl_Reader.hxx>
#include <STEPControl_Reader.hxx>
#include <Standard_Failure.hxx>
#include <TColStd_SequenceOfAsciiString.hxx>
#include <TDF_LabelSequence.hxx>
#include <TDataStd_Name.hxx>
#include <TDocStd_Document.hxx>
#include <TopExp_Explorer.hxx>
#include <TopoDS.hxx>
#include <TopoDS_Face.hxx>
#include <XCAFDoc_DocumentTool.hxx>
#include <XCAFDoc_ShapeTool.hxx>
#include <gp_Cone.hxx>
#include <gp_Cylinder.hxx>
#include <gp_Pln.hxx>

#include <array>
#include <cmath>
#include <cstdint>
#include <cstdio>
#include <cstdlib>
#include <iostream>
#include <map>
#include <string>
#include <vector>

namespace {

using Point = std::array<double, 3>;

// Corners nearer to each other than this, in millimetres, are one vertex: OpenCASCADE's own tolerance of an edge is smaller.
constexpr double weld = 1e-6;

// The vertices of a solid, each once.
class Vertices {
public:
    std::uint32_t number_of(const gp_Pnt &at)
    {
        const Point point{at.X(), at.Y(), at.Z()};
        const std::array<std::int64_t, 3> cell = cell_of(point);
        for (std::int64_t x = -1; x <= 1; ++x)
            for (std::int64_t y = -1; y <= 1; ++y)
                for (std::int64_t z = -1; z <= 1; ++z) {
                    const auto found = cells.find({cell[0] + x, cell[1] + y, cell[2] + z});
                    if (found != cells.end() && is_near(all[found->second], point))
                        return found->second;
                }
        all.push_back(point);
        const auto number = static_cast<std::uint32_t>(all.size() - 1);
        cells[cell] = number;
        return number;
    }

    std::vector<Point> all;

private:
    static std::array<std::int64_t, 3> cell_of(const Point &point)
    {
        return {std::llround(point[0] / weld), std::llround(point[1] / weld), std::llround(point[2] / weld)};
    }

    static bool is_near(const Point &one, const Point &other)
    {
        return std::hypot(one[0] - other[0], one[1] - other[1], one[2] - other[2]) <= weld;
    }

    std::map<std::array<std::int64_t, 3>, std::uint32_t> cells;
};

// A line of text for what a surface is, with the drawing's own numbers.
std::string surface_of(const TopoDS_Face &face)
{
    const BRepAdaptor_Surface surface(face);
    char text[512];
    const auto axis = [](const gp_Ax1 &along, char *at, std::size_t room) {
        const gp_Pnt p = along.Location();
        const gp_Dir d = along.Direction();
        std::snprintf(at, room, "%.17g %.17g %.17g %.17g %.17g %.17g", p.X(), p.Y(), p.Z(), d.X(), d.Y(), d.Z());
    };
    char place[256];
    switch (surface.GetType()) {
    case GeomAbs_Plane:
        axis(surface.Plane().Axis(), place, sizeof place);
        std::snprintf(text, sizeof text, "plane %s", place);
        return text;
    case GeomAbs_Cylinder:
        axis(surface.Cylinder().Axis(), place, sizeof place);
        std::snprintf(text, sizeof text, "cylinder %s %.17g", place, surface.Cylinder().Radius());
        return text;
    case GeomAbs_Cone:
        axis(surface.Cone().Axis(), place, sizeof place);
        std::snprintf(text, sizeof text, "cone %s %.17g %.17g", place, surface.Cone().RefRadius(), surface.Cone().SemiAngle());
        return text;
    default:
        return "other";
    }
}

// The name in one line.
std::string in_a_line(const std::string &name)
{
    std::string line;
    for (const char letter : name)
        line += static_cast<unsigned char>(letter) < ' ' ? ' ' : letter;
    return line;
}

// Writes a solid: its faces in the explorer's order, each a surface.
void write(const TopoDS_Shape &solid, const std::string &name, double linear, double angular)
{
    BRepMesh_IncrementalMesh(solid, linear, Standard_False, angular, Standard_False);
    Vertices vertices;
    std::vector<std::string> surfaces;
    std::vector<std::array<std::uint32_t, 4>> triangles;
    for (TopExp_Explorer faces(solid, TopAbs_FACE); faces.More(); faces.Next()) {
        const TopoDS_Face face = TopoDS::Face(faces.Current());
        TopLoc_Location location;
        const Handle(Poly_Triangulation) mesh = BRep_Tool::Triangulation(face, location);
        if (mesh.IsNull())
            throw Standard_Failure("a face has no triangles");
        std::vector<std::uint32_t> numbers;
        for (Standard_Integer node = 1; node <= mesh->NbNodes(); ++node)
            numbers.push_back(vertices.number_of(mesh->Node(node).Transformed(location.Transformation())));
        const bool mirrored = location.Transformation().IsNegative();
        const bool turned = (face.Orientation() == TopAbs_REVERSED) != mirrored;
        for (Standard_Integer each = 1; each <= mesh->NbTriangles(); ++each) {
            Standard_Integer a, b, c;
            mesh->Triangle(each).Get(a, b, c);
            if (turned)
                std::swap(b, c);
            const std::array<std::uint32_t, 3> corners{numbers[a - 1], numbers[b - 1], numbers[c - 1]};
            // a triangle whose corners are welded has no area
            if (corners[0] != corners[1] && corners[1] != corners[2] && corners[2] != corners[0])
                triangles.push_back({corners[0], corners[1], corners[2], static_cast<std::uint32_t>(surfaces.size())});
        }
        surfaces.push_back(surface_of(face));
    }
    std::printf("solid %zu %zu %zu %s\n", surfaces.size(), vertices.all.size(), triangles.size(), in_a_line(name).c_str());
    for (const std::string &surface : surfaces)
        std::printf("%s\n", surface.c_str());
    for (const Point &point : vertices.all)
        std::printf("%.17g %.17g %.17g\n", point[0], point[1], point[2]);
    for (const auto &triangle : triangles)
        std::printf("%u %u %u %u\n", triangle[0], triangle[1], triangle[2], triangle[3]);
}

std::string name_of(const TDF_Label &label)
{
    Handle(TDataStd_Name) name;
    if (!label.FindAttribute(TDataStd_Name::GetID(), name))
        return "";
    const TCollection_ExtendedString &text = name->Get();
    std::string bytes(static_cast<std::size_t>(text.LengthOfCString()) + 1, '\0');
    Standard_PCharacter at = bytes.data();
    text.ToUTF8CString(at);
    return bytes.c_str();
}

// A part with its name and its place in the assembly.
struct Part {
    TopoDS_Shape shape;
    std::string name;
};

// The parts below a label: an assembly's components in their places, or the label's own shape.
void gather(const TDF_Label &label, const TopLoc_Location &place, std::vector<Part> &parts)
{
    if (!XCAFDoc_ShapeTool::IsAssembly(label)) {
        parts.push_back({XCAFDoc_ShapeTool::GetShape(label).Moved(place), name_of(label)});
        return;
    }
    TDF_LabelSequence components;
    XCAFDoc_ShapeTool::GetComponents(label, components);
    for (const TDF_Label &component : components) {
        TDF_Label referred;
        if (XCAFDoc_ShapeTool::GetReferredShape(component, referred))
            gather(referred, place * XCAFDoc_ShapeTool::GetLocation(component), parts);
    }
}

// Writes every solid of a part; a part without solids, such as an open shell, is written as it is.
std::size_t write_solids(const Part &part, double linear, double angular)
{
    std::size_t written = 0;
    for (TopExp_Explorer solids(part.shape, TopAbs_SOLID); solids.More(); solids.Next(), ++written)
        write(solids.Current(), part.name, linear, angular);
    if (written == 0 && TopExp_Explorer(part.shape, TopAbs_FACE).More()) {
        write(part.shape, part.name, linear, angular);
        written = 1;
    }
    return written;
}

// The file's unit of length, as the file names it.
std::string unit_of(STEPControl_Reader &reader)
{
    TColStd_SequenceOfAsciiString lengths, angles, solid_angles;
    reader.FileUnits(lengths, angles, solid_angles);
    return lengths.IsEmpty() ? "unknown" : lengths.First().ToCString();
}

int read(const char *file, double linear, double angular)
{
    STEPCAFControl_Reader reader;
    reader.SetNameMode(Standard_True);
    if (reader.ReadFile(file) != IFSelect_RetDone) {
        std::fprintf(stderr, "probe-step: this is not a STEP file that OpenCASCADE reads\n");
        return 1;
    }
    Handle(TDocStd_Document) document = new TDocStd_Document("probe-step");
    if (!reader.Transfer(document)) {
        std::fprintf(stderr, "probe-step: OpenCASCADE cannot make shapes of the file\n");
        return 1;
    }
    std::printf("probe-step 1 %s\n", in_a_line(unit_of(reader.ChangeReader())).c_str());
    TDF_LabelSequence free;
    XCAFDoc_DocumentTool::ShapeTool(document->Main())->GetFreeShapes(free);
    std::vector<Part> parts;
    for (const TDF_Label &label : free)
        gather(label, TopLoc_Location(), parts);
    std::size_t written = 0;
    for (const Part &part : parts)
        written += write_solids(part, linear, angular);
    if (written == 0) {
        std::fprintf(stderr, "probe-step: the file has no solid and no face\n");
        return 1;
    }
    std::printf("end\n");
    return std::fflush(stdout) == 0 ? 0 : 1;
}

// A deflection: a number above 0.
bool is_deflection(const char *text, double &value)
{
    char *end = nullptr;
    value = std::strtod(text, &end);
    return end != text && *end == '\0' && std::isfinite(value) && value > 0;
}

} // namespace

int main(int count, char **words)
{
    double linear = 0.05, angular = 0.35;
    if ((count != 2 && count != 4) || (count == 4 && !(is_deflection(words[2], linear) && is_deflection(words[3], angular)))) {
        std::fprintf(stderr, "usage: probe-step FILE [LINEAR ANGULAR]\n");
        return 2;
    }
    // OpenCASCADE reports on standard output, which is ours
    Message::DefaultMessenger()->ChangePrinters().Clear();
    try {
        return read(words[1], linear, angular);
    } catch (const Standard_Failure &failure) {
        std::fprintf(stderr, "probe-step: OpenCASCADE: %s\n", failure.GetMessageString());
        return 1;
    }
}
