// Solids to be made with Open CASCADE and written as IGES B-reps.
#pragma once
#include <TopoDS_Shape.hxx>
#include <functional>
#include <string>
#include <vector>

// A part that a file gives a name and a colour, and a colour of one face where `face` counts it from 1.
struct Part {
  TopoDS_Shape shape;
  std::string name;
  double red, green, blue;
  int face = 0;
};

struct Recipe {
  std::string name;
  // What `igesolid certify` is to answer of each solid of the file: closed, or the rule that fails.
  std::string verdict;
  std::function<TopoDS_Shape()> make;
  // For files with names and colours, in place of `make`.
  std::function<std::vector<Part>()> parts = nullptr;
};

std::vector<Recipe> recipes();
