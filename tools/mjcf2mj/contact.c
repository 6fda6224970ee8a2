// Which geoms meet, and how their contacts answer. MuJoCo filters by masks, excluded bodies, welded bodies and listed
// pairs; mj by masks and the direct parent. Every pair is compared: where the two would differ, it is told.
#include <math.h>
#include <stdlib.h>
#include <string.h>

#include "plan.h"

enum { CLASSES = 31 };

static int weld_of(const mjModel* m, int geom) { return m->body_weldid[m->geom_bodyid[geom]]; }

static int weld_parent(const mjModel* m, int weld) { return m->body_weldid[m->body_parentid[weld]]; }

static bool colliding_kinds(const mjModel* m, int a, int b) {
  int low = mjMIN(m->geom_type[a], m->geom_type[b]), high = mjMAX(m->geom_type[a], m->geom_type[b]);
  return mjCOLLISIONFUNC[low][high] != NULL;
}

// The listed pair of these two geoms, or -1.
static int listed(const mjModel* m, int a, int b) {
  if (m->opt.collision == mjCOL_DYNAMIC) return -1;
  for (int k = 0; k < m->npair; k++) {
    int one = m->pair_geom1[k], two = m->pair_geom2[k];
    if ((one == a && two == b) || (one == b && two == a)) return k;
  }
  return -1;
}

static bool excluded(const mjModel* m, int a, int b) {
  int low = mjMIN(m->geom_bodyid[a], m->geom_bodyid[b]), high = mjMAX(m->geom_bodyid[a], m->geom_bodyid[b]);
  for (int k = 0; k < m->nexclude; k++)
    if (m->exclude_signature[k] == ((low + 1) << 16) + high + 1) return true;
  return false;
}

// Whether MuJoCo tests the pair, and a dof moves one of the two against the other.
static bool tested(const mjModel* m, int a, int b) {
  int one = weld_of(m, a), two = weld_of(m, b);
  if (disabled(m, mjDSBL_CONTACT) || one == two || !colliding_kinds(m, a, b)) return false;
  if (listed(m, a, b) >= 0) return true;
  if (m->opt.collision == mjCOL_PAIR || excluded(m, a, b)) return false;
  bool kin = one && two && (one == weld_parent(m, two) || two == weld_parent(m, one));
  if (kin && !disabled(m, mjDSBL_FILTERPARENT)) return false;
  return (m->geom_contype[a] & m->geom_conaffinity[b]) || (m->geom_contype[b] & m->geom_conaffinity[a]);
}

// Whether mj tests the pair where their masks meet; geoms stand on the bodies that carry them.
static bool testable(const mjModel* m, int a, int b) {
  int one = weld_of(m, a), two = weld_of(m, b);
  bool kin = one && two && (one == weld_parent(m, two) || two == weld_parent(m, one));
  return one != two && !kin && !(m->geom_type[a] == mjGEOM_PLANE && m->geom_type[b] == mjGEOM_PLANE);
}

static bool meet_by_masks(const Plan* plan, int a, int b) {
  return (plan->contype[a] & plan->conaffinity[b]) || (plan->contype[b] & plan->conaffinity[a]);
}

// How many pairs the masks as written get wrong; the first of them.
static int wrong_pairs(const Plan* plan, int* first, int* second) {
  const mjModel* m = plan->model;
  int wrong = 0;
  for (int a = 0; a < m->ngeom; a++) {
    for (int b = a + 1; b < m->ngeom; b++) {
      bool ours = testable(m, a, b) && meet_by_masks(plan, a, b);
      if (ours == plan->meets[a * m->ngeom + b] || wrong++) continue;
      *first = a;
      *second = b;
    }
  }
  return wrong;
}

// The model's own masks, if mj takes them.
static void own_masks(Plan* plan) {
  const mjModel* m = plan->model;
  for (int g = 0; g < m->ngeom; g++) {
    bool fits = plan->felt[g] && m->geom_contype[g] >= 0 && m->geom_conaffinity[g] >= 0;
    plan->contype[g] = fits ? m->geom_contype[g] : 0;
    plan->conaffinity[g] = fits ? m->geom_conaffinity[g] : 0;
  }
}

// Whether two geoms meet the same others, as far as mj can test both.
static bool alike(const Plan* plan, int a, int b) {
  const mjModel* m = plan->model;
  for (int g = 0; g < m->ngeom; g++) {
    if (!plan->felt[g] || !testable(m, a, g) || !testable(m, b, g)) continue;
    if (plan->meets[a * m->ngeom + g] != plan->meets[b * m->ngeom + g]) return false;
  }
  return true;
}

// Whether the geom can join the class: it must meet the same others as its members, and of each class all or none.
// rules: 0 unknown, 1 they don't meet, 2 they do; CLASSES x CLASSES.
static bool joins(const Plan* plan, int geom, int class, const int* classes, const char* rules) {
  const mjModel* m = plan->model;
  char row[CLASSES];
  memcpy(row, rules + class * CLASSES, sizeof row);
  for (int other = 0; other < geom; other++) {
    if (!plan->felt[other]) continue;
    if (classes[other] == class && !alike(plan, geom, other)) return false;
    if (!testable(m, geom, other)) continue;
    char rule = (char)(1 + plan->meets[geom * m->ngeom + other]);
    if (row[classes[other]] && row[classes[other]] != rule) return false;
    row[classes[other]] = rule;
  }
  return true;
}

// Masks by classes of geoms that meet the same others: contype is the bit of the class, conaffinity those it meets.
static void class_masks(Plan* plan) {
  const mjModel* m = plan->model;
  int* classes = room_for((size_t)m->ngeom, sizeof *classes);
  char rules[CLASSES * CLASSES] = {0};
  for (int g = 0; g < m->ngeom; g++) {
    if (!plan->felt[g]) continue;
    int class = 0;
    while (class < CLASSES - 1 && !joins(plan, g, class, classes, rules)) class ++;
    classes[g] = class;
    for (int other = 0; other < g; other++) {
      if (!plan->felt[other] || !testable(m, g, other)) continue;
      char rule = (char)(1 + plan->meets[g * m->ngeom + other]);
      rules[class * CLASSES + classes[other]] = rules[classes[other] * CLASSES + class] = rule;
    }
  }
  for (int g = 0; g < m->ngeom; g++) {
    plan->contype[g] = plan->conaffinity[g] = 0;
    if (!plan->felt[g]) continue;
    plan->contype[g] = 1 << classes[g];
    for (int c = 0; c < CLASSES; c++)
      if (rules[classes[g] * CLASSES + c] == 2) plan->conaffinity[g] |= 1 << c;
  }
  free(classes);
}

static void choose_masks(Plan* plan) {
  const mjModel* m = plan->model;
  int a = 0, b = 0;
  own_masks(plan);
  if (!wrong_pairs(plan, &a, &b)) return;
  class_masks(plan);
  int wrong = wrong_pairs(plan, &a, &b);
  if (!wrong) return;
  find(plan, LOST, "pair", -1, "",
       "%d pairs of geoms are tested otherwise (parents, or more than %d kinds of geoms), as %s and %s", wrong, CLASSES,
       name_of(m, mjOBJ_GEOM, a), name_of(m, mjOBJ_GEOM, b));
}

void usable_solref(Plan* plan, double solref[2]) {
  const mjModel* m = plan->model;
  if ((solref[0] > 0) != (solref[1] > 0)) {
    solref[0] = 0.02;
    solref[1] = 1;
  }
  if (solref[0] > 0 && !disabled(m, mjDSBL_REFSAFE)) solref[0] = fmax(solref[0], 2 * m->opt.timestep);
}

// As MuJoCo clamps it. A width of 0 is MuJoCo's word for a constant impedance, the mean of both ends, while dmax still
// scales stiffness and damping: mj gets the mean as dmin, and a width so large that dmin holds.
void usable_solimp(double solimp[5]) {
  for (int k = 0; k < 4; k++)
    if (k != 2) solimp[k] = fmin(fmax(solimp[k], mjMINIMP), mjMAXIMP);
  solimp[4] = fmax(solimp[4], 1);
  if (solimp[2] <= mjMINVAL) {
    solimp[0] = (solimp[0] + solimp[1]) / 2;
    solimp[2] = 1024;
    solimp[3] = 0.5;
    solimp[4] = 5;
  }
  if (solimp[0] == solimp[1] && (solimp[4] != floor(solimp[4]) || solimp[4] > 5)) solimp[4] = 1;
}

static Touch geom_touch(const mjModel* m, int g) {
  Touch out = {.condim = m->geom_condim[g], .friction = m->geom_friction[3 * g], .margin = m->geom_margin[g]};
  mju_copy(out.solref, m->geom_solref + mjNREF * g, 2);
  mju_copy(out.solimp, m->geom_solimp + mjNIMP * g, 5);
  return out;
}

// Mixes as MuJoCo does two geoms of one priority; share: of the first.
static Touch mix(const Touch* a, const Touch* b, double share) {
  Touch out = {.condim = mjMAX(a->condim, b->condim),
               .friction = fmax(a->friction, b->friction),
               .margin = fmax(a->margin, b->margin)};
  bool mean = a->solref[0] > 0 && b->solref[0] > 0;
  for (int k = 0; k < 2; k++)
    out.solref[k] = mean ? share * a->solref[k] + (1 - share) * b->solref[k] : fmin(a->solref[k], b->solref[k]);
  for (int k = 0; k < 5; k++) out.solimp[k] = share * a->solimp[k] + (1 - share) * b->solimp[k];
  return out;
}

static double share_of(const mjModel* m, int a, int b) {
  double one = m->geom_solmix[a], two = m->geom_solmix[b];
  if (one >= mjMINVAL && two >= mjMINVAL) return one / (one + two);
  return one < mjMINVAL && two < mjMINVAL ? 0.5 : one < mjMINVAL ? 0 : 1;
}

// How MuJoCo's contact of the two geoms answers.
static Touch wanted(Plan* plan, int a, int b) {
  const mjModel* m = plan->model;
  int pair = listed(m, a, b);
  Touch one = geom_touch(m, a), two = geom_touch(m, b), out;
  double gap = fmax(m->geom_gap[a], m->geom_gap[b]), margin = fmax(one.margin, two.margin);
  int first = m->geom_priority[a] - m->geom_priority[b];
  out = first ? first > 0 ? one : two : mix(&one, &two, share_of(m, a, b));
  if (pair >= 0) {
    out.condim = m->pair_dim[pair];
    out.friction = m->pair_friction[5 * pair];
    margin = m->pair_margin[pair];
    gap = m->pair_gap[pair];
    mju_copy(out.solref, m->pair_solref + mjNREF * pair, 2);
    mju_copy(out.solimp, m->pair_solimp + mjNIMP * pair, 5);
  }
  if (m->opt.enableflags & mjENBL_OVERRIDE) {
    margin = m->opt.o_margin;
    mju_copy(out.solref, m->opt.o_solref, 2);
    mju_copy(out.solimp, m->opt.o_solimp, 5);
  }
  out.margin = margin - gap;
  out.friction = fmax(out.friction, mjMINMU);
  usable_solref(plan, out.solref);
  usable_solimp(out.solimp);
  return out;
}

// Whether two contacts answer the same.
static bool agree(const Touch* a, const Touch* b) {
  bool equal =
      a->condim == b->condim && same(a->margin, b->margin) && (a->condim == 1 || same(a->friction, b->friction));
  for (int k = 0; k < 2; k++) equal = equal && same(a->solref[k], b->solref[k]);
  bool constant = a->solimp[0] == a->solimp[1] && b->solimp[0] == b->solimp[1];
  for (int k = 0; k < (constant ? 2 : 5); k++) equal = equal && same(a->solimp[k], b->solimp[k]);
  return equal;
}

// How mj's contact of the two geoms as written answers.
static Touch given(const Plan* plan, int a, int b) {
  Touch out = mix(plan->touch + a, plan->touch + b, 0.5);
  out.solimp[4] = ceil(out.solimp[4] - 0.5);
  usable_solimp(out.solimp);
  return out;
}

// A geom with its own numbers. A short time constant is raised only where all whom it meets have short ones, since
// MuJoCo raises it after mixing.
static void own_touch(Plan* plan, int g) {
  const mjModel* m = plan->model;
  Touch* out = plan->touch + g;
  *out = geom_touch(m, g);
  out->margin -= m->geom_gap[g];
  out->friction = fmax(out->friction, mjMINMU);
  bool raise = true;
  for (int other = 0; other < m->ngeom; other++)
    if (plan->meets[g * m->ngeom + other] && m->geom_solref[mjNREF * other] > 2 * m->opt.timestep) raise = false;
  if (raise || out->solref[0] <= 0 || out->solref[1] <= 0) usable_solref(plan, out->solref);
  usable_solimp(out->solimp);
}

// A geom whose contacts all answer alike, with just that.
static void common_touch(Plan* plan, int g) {
  bool met = false;
  Touch common = plan->touch[g];
  for (int other = 0; other < plan->model->ngeom; other++) {
    if (!plan->meets[g * plan->model->ngeom + other]) continue;
    Touch contact = wanted(plan, g, other);
    if (contact.solimp[4] != floor(contact.solimp[4]) || (met && !agree(&common, &contact))) return;
    common = contact;
    met = true;
  }
  plan->touch[g] = common;
}

// How many contacts would answer otherwise than MuJoCo's; the first of them.
static int wrong_touches(Plan* plan, int* first, int* second) {
  const mjModel* m = plan->model;
  int wrong = 0;
  for (int a = 0; a < m->ngeom; a++) {
    for (int b = a + 1; b < m->ngeom; b++) {
      if (!plan->meets[a * m->ngeom + b] || !testable(m, a, b)) continue;
      Touch theirs = wanted(plan, a, b), ours = given(plan, a, b);
      int pair = listed(m, a, b);
      bool askew = pair >= 0 && theirs.condim > 1 && m->pair_friction[5 * pair] != m->pair_friction[5 * pair + 1];
      if ((agree(&theirs, &ours) && !askew) || wrong++) continue;
      *first = a;
      *second = b;
    }
  }
  return wrong;
}

static void choose_touches(Plan* plan) {
  const mjModel* m = plan->model;
  int a = 0, b = 0;
  for (int g = 0; g < m->ngeom; g++) own_touch(plan, g);
  if (!wrong_touches(plan, &a, &b)) return;
  for (int g = 0; g < m->ngeom; g++) common_touch(plan, g);
  if (!wrong_touches(plan, &a, &b)) return;
  for (int g = 0; g < m->ngeom; g++) own_touch(plan, g);
  int wrong = wrong_touches(plan, &a, &b);
  find(plan, LOST, "pair", -1, "",
       "%d contacts answer otherwise (priority, solmix, gap, margin or softness of the pair), as %s and %s", wrong,
       name_of(m, mjOBJ_GEOM, a), name_of(m, mjOBJ_GEOM, b));
}

// What of the written contacts mj doesn't have.
static void judge_touch(Plan* plan, int g) {
  const mjModel* m = plan->model;
  Touch* out = plan->touch + g;
  const char* name = name_of(m, mjOBJ_GEOM, g);
  if (out->condim > 3) {
    find(plan, LOST, "geom", g + 1, name, "condim %d: mj has 1 and 3; 3 stands in its place", out->condim);
    out->condim = 3;
  }
  if (out->solimp[4] != floor(out->solimp[4]) || out->solimp[4] > 5) {
    find(plan, LOST, "geom", g + 1, name, "solimp's power %.6g: mj has 1 to 5", out->solimp[4]);
    out->solimp[4] = fmin(floor(out->solimp[4] + 0.5), 5);
  }
  if (out->margin < 0) {
    find(plan, LOST, "geom", g + 1, name, "a gap wider than its margin");
    out->margin = 0;
  }
}

void touch(Plan* plan) {
  const mjModel* m = plan->model;
  size_t n = (size_t)m->ngeom;
  plan->touch = room_for(n, sizeof *plan->touch);
  plan->meets = room_for(n * n, sizeof *plan->meets);
  plan->felt = room_for(n, sizeof *plan->felt);
  plan->contype = room_for(n, sizeof *plan->contype);
  plan->conaffinity = room_for(n, sizeof *plan->conaffinity);
  for (int a = 0; a < m->ngeom; a++)
    for (int b = 0; b < m->ngeom; b++)
      if (a != b && tested(m, a, b)) plan->meets[a * m->ngeom + b] = plan->felt[a] = plan->felt[b] = true;
  choose_masks(plan);
  choose_touches(plan);
  for (int g = 0; g < m->ngeom; g++)
    if (plan->felt[g]) judge_touch(plan, g);
}
