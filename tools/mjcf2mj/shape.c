// Geoms. mj has planes, spheres and capsules; with --near other shapes stand as balls and capsules.
#include <math.h>
#include <stdio.h>
#include <string.h>

#include "plan.h"

enum { MOST_GEOMS = 128 };

// A shape that mj has, in the frame of the body that carries it: metres, and a quaternion (w x y z).
typedef struct {
  int type;
  double size[2], pos[3], quat[4];
} Shape;

static const char* const kinds[mjNGEOMTYPES] = {"plane",     "height field", "sphere", "capsule",
                                                "ellipsoid", "cylinder",     "box",    "mesh"};

static bool known(int type) { return type == mjGEOM_PLANE || type == mjGEOM_SPHERE || type == mjGEOM_CAPSULE; }

// A capsule of this radius and half length along an axis of the geom, or a ball where no length is left.
static void capsule_along(Shape* out, int axis, double radius, double half) {
  static const double turns[3][4] = {{0.70710678118654757, 0, 0.70710678118654757, 0},
                                     {0.70710678118654757, -0.70710678118654757, 0, 0},
                                     {1, 0, 0, 0}};
  double quat[4];
  out->type = half > 0 ? mjGEOM_CAPSULE : mjGEOM_SPHERE;
  out->size[0] = radius;
  out->size[1] = half;
  mju_mulQuat(quat, out->quat, turns[axis]);
  if (axis != 2) mju_copy(out->quat, quat, 4);
}

static void shift(Shape* out, const double offset[3]) {
  double turned[3];
  mju_rotVecQuat(turned, offset, out->quat);
  mju_addTo(out->pos, turned, 3);
}

// Along the longest of three half sizes; the radius is the mean of the others.
static void longest_capsule(Shape* out, const double half[3]) {
  int axis = half[0] >= half[1] && half[0] >= half[2] ? 0 : half[1] >= half[2] ? 1 : 2;
  double radius = (half[(axis + 1) % 3] + half[(axis + 2) % 3]) / 2;
  capsule_along(out, axis, radius, half[axis] - radius);
}

// Half sizes and centre of a mesh's vertices, in the geom's frame.
static void mesh_box(const mjModel* m, int mesh, double half[3], double centre[3]) {
  double low[3] = {INFINITY, INFINITY, INFINITY}, high[3] = {-INFINITY, -INFINITY, -INFINITY};
  for (int v = 0; v < m->mesh_vertnum[mesh]; v++) {
    for (int k = 0; k < 3; k++) {
      double x = m->mesh_vert[3 * (m->mesh_vertadr[mesh] + v) + k];
      low[k] = fmin(low[k], x);
      high[k] = fmax(high[k], x);
    }
  }
  for (int k = 0; k < 3; k++) {
    half[k] = (high[k] - low[k]) / 2;
    centre[k] = (high[k] + low[k]) / 2;
  }
}

// Eight balls in the corners of a box: small, so that it meets a plane where the box would.
static int box_balls(const Shape* frame, const double half[3], Shape* out) {
  double radius = fmin(half[0], fmin(half[1], half[2])) / 64;
  for (int k = 0; k < 8; k++) {
    out[k] = *frame;
    out[k].type = mjGEOM_SPHERE;
    out[k].size[0] = radius;
    double corner[3] = {half[0] - radius, half[1] - radius, half[2] - radius};
    for (int axis = 0; axis < 3; axis++)
      if (k >> axis & 1) corner[axis] = -corner[axis];
    shift(out + k, corner);
  }
  return 8;
}

// The shapes that stand for a geom, 8 at most; frame has its pose. 0: mj has none.
static int shapes_of(const Plan* plan, int g, const Shape* frame, Shape* out) {
  const mjModel* m = plan->model;
  int type = m->geom_type[g];
  const double* size = m->geom_size + 3 * g;
  double half[3], centre[3];
  *out = *frame;
  out->type = type;
  mju_copy(out->size, size, 2);
  if (known(type)) return 1;
  if (!plan->words->near || !plan->felt[g]) return 0;
  switch (type) {
    case mjGEOM_BOX: return box_balls(frame, size, out);
    case mjGEOM_CYLINDER: capsule_along(out, 2, size[0], size[1] - size[0]); return 1;
    case mjGEOM_ELLIPSOID: longest_capsule(out, size); return 1;
    case mjGEOM_MESH:
      mesh_box(m, m->geom_dataid[g], half, centre);
      shift(out, centre);
      longest_capsule(out, half);
      return 1;
    default: return 0;
  }
}

static void write_key(Plan* plan, const char* key, const double* values, int count) {
  text_add(&plan->text, "%s = ", key);
  if (count == 1)
    text_number(&plan->text, *values);
  else
    text_numbers(&plan->text, values, count);
  text_add(&plan->text, "\n");
}

static void write_answer(Plan* plan, int g) {
  const Touch* touch = plan->touch + g;
  int number = g + 1;
  int type = plan->felt[g] ? plan->contype[g] : 0, affinity = plan->felt[g] ? plan->conaffinity[g] : 0;
  if (type != 1) text_add(&plan->text, "contype = %d\n", type);
  if (affinity != 1) text_add(&plan->text, "conaffinity = %d\n", affinity);
  if (!plan->felt[g]) return;
  if (touch->condim != 3) text_add(&plan->text, "condim = %d\n", touch->condim);
  within(plan, touch->friction, 0, 16, "geom", number, "friction");
  if (touch->friction != 1) {
    text_add(&plan->text, "friction = [");
    text_number(&plan->text, touch->friction);
    text_add(&plan->text, "]\n");
  }
  within(plan, touch->margin, 0, 1024, "geom", number, "margin");
  if (touch->margin) write_key(plan, "margin", &touch->margin, 1);
  write_softness(plan, "", touch->solref, touch->solimp, "geom", number);
}

// One geom; part: which of several shapes of it, from 1, or 0.
static void write_shape(Plan* plan, int g, const Shape* shape, int part, const char* table) {
  const mjModel* m = plan->model;
  const char* name = mj_id2name(m, mjOBJ_GEOM, g);
  int numbers = shape->type == mjGEOM_CAPSULE ? 2 : shape->type == mjGEOM_SPHERE;
  text_add(&plan->text, "[[%s]]\n", table);
  if (name && name[0]) {
    char whole[80];
    snprintf(whole, sizeof whole, part ? "%.70s_%d" : "%.70s", name, part);
    within(plan, (double)strlen(whole), 1, 64, "geom", g + 1, "the length of its name");
    text_add(&plan->text, "name = ");
    text_string(&plan->text, whole);
    text_add(&plan->text, "\n");
  }
  if (shape->type != mjGEOM_SPHERE) text_add(&plan->text, "type = \"%s\"\n", kinds[shape->type]);
  for (int k = 0; k < numbers; k++) within(plan, shape->size[k], ldexp(1, -32), 1024, "geom", g + 1, "size");
  if (numbers) {
    text_add(&plan->text, "size = ");
    text_numbers(&plan->text, shape->size, numbers);
    text_add(&plan->text, "\n");
  }
  for (int k = 0; k < 3; k++) within(plan, shape->pos[k], -1024, 1024, "geom", g + 1, "pos");
  if (shape->pos[0] || shape->pos[1] || shape->pos[2]) write_key(plan, "pos", shape->pos, 3);
  if (shape->quat[0] != 1) write_key(plan, "quat", shape->quat, 4);
  write_answer(plan, g);
}

// Tells what becomes of a geom that isn't written as it is; count: of the shapes that stand for it.
static void tell_shape(Plan* plan, int g, int count) {
  const mjModel* m = plan->model;
  const char* name = mj_id2name(m, mjOBJ_GEOM, g);
  const char* kind = kinds[m->geom_type[g]];
  if (!plan->felt[g] || known(m->geom_type[g])) return;
  if (!count)
    find(plan, LOST, "geom", g + 1, name, "a %s", kind);
  else if (count == 8)
    find(plan, OTHER, "geom", g + 1, name,
         "a box as 8 balls in its corners: planes hold it, the faces of others don't");
  else
    find(plan, OTHER, "geom", g + 1, name, "a %s as a capsule or ball", kind);
}

// How many geoms are written, with those that meet nothing or without.
static int geom_count(const Plan* plan, bool all) {
  Shape frame = {.quat = {1}}, shapes[8];
  int count = 0;
  for (int g = 0; g < plan->model->ngeom; g++)
    if (all || plan->felt[g]) count += shapes_of(plan, g, &frame, shapes);
  return count;
}

void write_geoms(Plan* plan, int carrier) {
  const mjModel* m = plan->model;
  bool all = geom_count(plan, true) <= MOST_GEOMS;
  if (!carrier) {
    within(plan, geom_count(plan, false), 0, MOST_GEOMS, "model", -1, "the number of geoms that meet others");
    if (!all)
      find(plan, NOTE, "model", -1, "", "geoms that meet nothing are left out, since there are more than %d",
           MOST_GEOMS);
  }
  for (int g = 0; g < m->ngeom; g++) {
    if (m->body_weldid[m->geom_bodyid[g]] != carrier) continue;
    Shape frame, shapes[8];
    mju_copy(frame.pos, m->geom_pos + 3 * g, 3);
    mju_copy(frame.quat, m->geom_quat + 4 * g, 4);
    raise_frame(m, m->geom_bodyid[g], carrier, frame.pos, frame.quat);
    int count = shapes_of(plan, g, &frame, shapes);
    tell_shape(plan, g, count);
    if (!all && !plan->felt[g]) continue;
    for (int k = 0; k < count; k++)
      write_shape(plan, g, shapes + k, count > 1 ? k + 1 : 0, carrier ? "body.geom" : "geom");
  }
}
