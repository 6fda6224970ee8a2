// The model's text: option, bodies with joints, equalities, keyframe.
#include <math.h>
#include <stdio.h>
#include <stdlib.h>
#include <string.h>

#include "plan.h"

static const double most = 1048576;

bool disabled(const mjModel* m, int flag) {
  int constraints = mjDSBL_EQUALITY | mjDSBL_FRICTIONLOSS | mjDSBL_LIMIT | mjDSBL_CONTACT;
  int flags = m->opt.disableflags;
  return flags & flag || (flag & constraints && flags & mjDSBL_CONSTRAINT);
}

bool same(double a, double b) { return fabs(a - b) <= 1e-13 * fmax(fabs(a), fabs(b)); }

// The object's name; one without a name gets its kind and number. The text lasts for eight further calls.
const char* name_of(const mjModel* m, int type, int index) {
  static char rooms[8][100];
  static int turn;
  const char* name = mj_id2name(m, type, index);
  if (name && name[0]) return name;
  char* room = rooms[turn++ % 8];
  const char* kind = type == mjOBJ_ACTUATOR ? "motor" : mju_type2Str(type);
  int size = snprintf(room, sizeof rooms[0], "%s%d", kind, type == mjOBJ_BODY ? index : index + 1);
  while (mj_name2id(m, type, room) >= 0 && size < 60) room[size++] = '_', room[size] = 0;
  return room;
}

const char* joint_name(const Plan* plan, int joint) { return name_of(plan->model, mjOBJ_JOINT, joint); }

bool scalar(const mjModel* m, int joint) {
  return m->jnt_type[joint] == mjJNT_HINGE || m->jnt_type[joint] == mjJNT_SLIDE;
}

double start_of(const mjModel* m, int joint) { return m->qpos0[m->jnt_qposadr[joint]]; }

void raise_frame(const mjModel* m, int body, int carrier, double pos[3], double quat[4]) {
  for (; body != carrier; body = m->body_parentid[body]) {
    double turned[3], joined[4];
    mju_rotVecQuat(turned, pos, m->body_quat + 4 * body);
    mju_add3(pos, m->body_pos + 3 * body, turned);
    mju_mulQuat(joined, m->body_quat + 4 * body, quat);
    mju_copy4(quat, joined);
  }
}

static void write_name(Plan* plan, const char* name, const char* object, int number) {
  within(plan, (double)strlen(name), 1, 64, object, number, "the length of its name");
  text_add(&plan->text, "name = ");
  text_string(&plan->text, name);
  text_add(&plan->text, "\n");
}

// A key with numbers that must each be within low and high.
static void write_key(Plan* plan, const char* key, const double* values, int count, double low, double high,
                      const char* object, int number) {
  for (int k = 0; k < count; k++) within(plan, values[k], low, high, object, number, key);
  text_add(&plan->text, "%s = ", key);
  if (count == 1)
    text_number(&plan->text, *values);
  else
    text_numbers(&plan->text, values, count);
  text_add(&plan->text, "\n");
}

static bool any(const double* values, int count) {
  for (int k = 0; k < count; k++)
    if (values[k]) return true;
  return false;
}

// Writes solref and solimp where they aren't mj's defaults; they are usable already.
void write_softness(Plan* plan, const char* suffix, const double solref[2], const double solimp[5], const char* object,
                    int number) {
  static const double ref0[2] = {0.02, 1}, imp0[5] = {0.9, 0.95, 0.001, 0.5, 2};
  char key[40];
  snprintf(key, sizeof key, "solref%s", suffix);
  bool positive = solref[0] > 0;
  if (memcmp(solref, ref0, sizeof ref0))
    write_key(plan, key, solref, 2, positive ? ldexp(1, -12) : -most, positive ? 1024 : 0, object, number);
  snprintf(key, sizeof key, "solimp%s", suffix);
  if (!memcmp(solimp, imp0, sizeof imp0)) return;
  within(plan, solimp[2], ldexp(1, -32), 1024, object, number, "the width of solimp");
  write_key(plan, key, solimp, 5, 0, 1024, object, number);
}

// The softness of a joint, a tendon or an equality: as MuJoCo uses it.
void write_soft_row(Plan* plan, const char* suffix, const double* solref, const double* solimp, const char* object,
                    int number) {
  double ref[2], imp[5];
  mju_copy(ref, solref, 2);
  mju_copy(imp, solimp, 5);
  usable_solref(plan, ref);
  usable_solimp(imp);
  if (imp[4] != floor(imp[4]) || imp[4] > 5) {
    find(plan, LOST, object, number, "", "solimp's power %.6g: mj has 1 to 5", imp[4]);
    imp[4] = fmin(floor(imp[4] + 0.5), 5);
  }
  write_softness(plan, suffix, ref, imp, object, number);
}

static void write_option(Plan* plan) {
  const mjModel* m = plan->model;
  static const double none[3] = {0};
  const double* gravity = disabled(m, mjDSBL_GRAVITY) ? none : m->opt.gravity;
  int nv = mjMAX(1, m->nv);
  double tolerance = fmin(1, 2 * m->opt.tolerance * m->stat.meaninertia * nv);
  double iterations = m->opt.solver == mjSOL_PGS ? m->opt.iterations : mjMAX(1000, m->opt.iterations);
  text_add(&plan->text, "\n[option]\n");
  write_key(plan, "timestep", &m->opt.timestep, 1, ldexp(1, -32), 1, "option", -1);
  write_key(plan, "gravity", gravity, 3, -1024, 1024, "option", -1);
  write_key(plan, "iterations", &iterations, 1, 1, 10000, "option", -1);
  write_key(plan, "tolerance", &tolerance, 1, 0, 1, "option", -1);
  text_add(&plan->text, "njmax = 1024\n");
}

// What of the options mj hasn't.
static void judge_option(Plan* plan) {
  const mjModel* m = plan->model;
  static const char* const integrators[] = {"Euler", "RK4", "implicit"};
  static const char* const solvers[] = {"PGS", "CG", "Newton"};
  if (m->opt.integrator != mjINT_EULER)
    find(plan, LOST, "option", -1, "", "integrator %s: mj has Euler", integrators[m->opt.integrator]);
  bool rubs = false;
  for (int g = 0; g < m->ngeom; g++) rubs = rubs || (plan->felt[g] && m->geom_condim[g] > 1);
  if (m->opt.cone != mjCONE_PYRAMIDAL && (rubs || m->npair))
    find(plan, LOST, "option", -1, "", "elliptic cones: mj has pyramids");
  if (m->opt.impratio != 1 && rubs)
    find(plan, OTHER, "option", -1, "", "impratio %.6g: mj's regularizer has none", m->opt.impratio);
  if (m->opt.noslip_iterations > 0) find(plan, LOST, "option", -1, "", "the noslip solver");
  if (m->opt.density > 0 || m->opt.viscosity > 0) find(plan, LOST, "option", -1, "", "a fluid: density or viscosity");
  if (m->opt.solver != mjSOL_PGS)
    find(plan, OTHER, "option", -1, "", "solver %s: mj has PGS, with at least 1000 iterations", solvers[m->opt.solver]);
  if (m->nmocap) find(plan, NOTE, "model", -1, "", "%d mocap bodies stand still", m->nmocap);
  if (m->nsensor) find(plan, NOTE, "model", -1, "", "sensors aren't in mj's format");
  if (m->nkey && !plan->words->key)
    find(plan, NOTE, "model", -1, "", "keyframes: %d; --key starts at one of them", m->nkey);
}

static void write_limit(Plan* plan, int j) {
  const mjModel* m = plan->model;
  double range[2] = {m->jnt_range[2 * j] - start_of(m, j), m->jnt_range[2 * j + 1] - start_of(m, j)};
  write_key(plan, "range", range, 2, -1024, 1024, "joint", j + 1);
  if (m->jnt_margin[j]) write_key(plan, "margin", m->jnt_margin + j, 1, 0, 1024, "joint", j + 1);
}

// The keys that hinges and slides alone have, but for damping and armature.
static void write_scalar(Plan* plan, int j) {
  const mjModel* m = plan->model;
  const Spring* spring = plan->joint + j;
  const double* axis = m->jnt_axis + 3 * j;
  if (axis[0] || axis[1] || axis[2] != 1) write_key(plan, "axis", axis, 3, -1024, 1024, "joint", j + 1);
  if (m->jnt_limited[j] && !disabled(m, mjDSBL_LIMIT)) write_limit(plan, j);
  if (spring->stiffness) write_key(plan, "stiffness", &spring->stiffness, 1, 0, most, "joint", j + 1);
  if (spring->stiffness && spring->rest) write_key(plan, "springref", &spring->rest, 1, -1024, 1024, "joint", j + 1);
}

// The softness of its limit and its friction.
static void write_rows(Plan* plan, int j) {
  const mjModel* m = plan->model;
  int dof = m->jnt_dofadr[j];
  bool rubs = m->dof_frictionloss[dof] > 0 && !disabled(m, mjDSBL_FRICTIONLOSS);
  if (rubs) write_key(plan, "frictionloss", m->dof_frictionloss + dof, 1, 0, most, "joint", j + 1);
  if (m->jnt_limited[j] && !disabled(m, mjDSBL_LIMIT))
    write_soft_row(plan, "limit", m->jnt_solref + mjNREF * j, m->jnt_solimp + mjNIMP * j, "joint", j + 1);
  if (rubs)
    write_soft_row(plan, "friction", m->dof_solref + mjNREF * dof, m->dof_solimp + mjNIMP * dof, "joint", j + 1);
}

// What of a ball or a free joint mj hasn't.
static void judge_joint(Plan* plan, int j) {
  const mjModel* m = plan->model;
  const char* name = joint_name(plan, j);
  if (scalar(m, j)) return;
  if (m->jnt_type[j] == mjJNT_BALL && m->jnt_limited[j] && !disabled(m, mjDSBL_LIMIT))
    find(plan, LOST, "joint", j + 1, name, "the limit of a ball joint");
  if (m->dof_frictionloss[m->jnt_dofadr[j]] > 0 && !disabled(m, mjDSBL_FRICTIONLOSS))
    find(plan, LOST, "joint", j + 1, name, "frictionloss of a ball or free joint");
}

static void write_joint(Plan* plan, int j) {
  const mjModel* m = plan->model;
  static const char* const types[] = {"free", "ball", "slide", "hinge"};
  int dof = m->jnt_dofadr[j], type = m->jnt_type[j];
  double damping = plan->joint[j].damping, armature = m->dof_armature[dof];
  if (!plan->words->explicit_damping && m->opt.integrator != mjINT_RK4)
    armature += m->opt.timestep * m->dof_damping[dof];
  judge_joint(plan, j);
  text_add(&plan->text, "[[body.joint]]\n");
  write_name(plan, joint_name(plan, j), "joint", j + 1);
  if (type != mjJNT_HINGE) text_add(&plan->text, "type = \"%s\"\n", types[type]);
  bool anchored = type == mjJNT_HINGE || type == mjJNT_BALL;
  if (anchored && any(m->jnt_pos + 3 * j, 3))
    write_key(plan, "pos", m->jnt_pos + 3 * j, 3, -1024, 1024, "joint", j + 1);
  if (scalar(m, j)) write_scalar(plan, j);
  if (damping) write_key(plan, "damping", &damping, 1, 0, most, "joint", j + 1);
  if (armature) write_key(plan, "armature", &armature, 1, 0, 8192, "joint", j + 1);
  if (scalar(m, j)) write_rows(plan, j);
  if (m->dof_M0[dof] < ldexp(1, -30))
    find(plan, NOTE, "joint", j + 1, joint_name(plan, j),
         "its inertia %.3g is below mj's smallest pivot 2^-30: a run ends in step 1", m->dof_M0[dof]);
}

static void write_inertial(Plan* plan, int body) {
  const mjModel* m = plan->model;
  const double *pos = m->body_ipos + 3 * body, *quat = m->body_iquat + 4 * body, *inertia = m->body_inertia + 3 * body;
  for (int k = 0; k < 3; k++) {
    within(plan, pos[k], -1024, 1024, "body", body, "its centre of mass");
    within(plan, inertia[k], 0, 8192, "body", body, "diaginertia");
  }
  within(plan, m->body_mass[body], 0, 8192, "body", body, "mass");
  text_add(&plan->text, "inertial = { ");
  if (any(pos, 3)) text_add(&plan->text, "pos = "), text_numbers(&plan->text, pos, 3), text_add(&plan->text, ", ");
  if (quat[0] != 1) text_add(&plan->text, "quat = "), text_numbers(&plan->text, quat, 4), text_add(&plan->text, ", ");
  text_add(&plan->text, "mass = ");
  text_number(&plan->text, m->body_mass[body]);
  if (any(inertia, 3)) text_add(&plan->text, ", diaginertia = "), text_numbers(&plan->text, inertia, 3);
  text_add(&plan->text, " }\n");
}

// A body that a joint moves, with all that is welded to it; or a welded body's mass, in the frame of its carrier.
static void write_body(Plan* plan, int body) {
  const mjModel* m = plan->model;
  int carrier = m->body_weldid[m->body_parentid[body]];
  double pos[3], quat[4];
  mju_copy3(pos, m->body_pos + 3 * body);
  mju_copy4(quat, m->body_quat + 4 * body);
  raise_frame(m, m->body_parentid[body], carrier, pos, quat);
  text_add(&plan->text, "\n[[body]]\n");
  write_name(plan, name_of(m, mjOBJ_BODY, body), "body", body);
  if (carrier) {
    text_add(&plan->text, "parent = ");
    text_string(&plan->text, name_of(m, mjOBJ_BODY, carrier));
    text_add(&plan->text, "\n");
  }
  if (any(pos, 3)) write_key(plan, "pos", pos, 3, -1024, 1024, "body", body);
  if (quat[0] != 1) write_key(plan, "quat", quat, 4, -1024, 1024, "body", body);
  if (m->body_mass[body] > 0 || any(m->body_inertia + 3 * body, 3)) write_inertial(plan, body);
  for (int k = 0; k < m->body_jntnum[body]; k++) write_joint(plan, m->body_jntadr[body] + k);
  if (m->body_weldid[body] == body) write_geoms(plan, body);
}

static int write_bodies(Plan* plan) {
  const mjModel* m = plan->model;
  int bodies = 0;
  for (int body = 1; body < m->nbody; body++) {
    int weld = m->body_weldid[body];
    bool heavy = m->body_mass[body] > 0 || any(m->body_inertia + 3 * body, 3);
    if (weld != body && (!weld || !heavy)) continue;
    bodies++;
    write_body(plan, body);
  }
  within(plan, bodies, 0, 128, "model", -1, "the number of bodies");
  within(plan, m->nv, 1, 64, "model", -1, "the number of velocities");
  return bodies;
}

// Whether mj has this equality; what isn't is told.
static bool has_equality(Plan* plan, int e) {
  const mjModel* m = plan->model;
  static const char* const types[] = {"connect", "weld", "joint", "tendon", "distance"};
  const char* name = name_of(m, mjOBJ_EQUALITY, e);
  if (!m->eq_active[e] || disabled(m, mjDSBL_EQUALITY)) {
    find(plan, NOTE, "equality", e + 1, name, "isn't active and is left out");
    return false;
  }
  bool joints = m->eq_type[e] == mjEQ_JOINT && m->eq_obj1id[e] != m->eq_obj2id[e];
  if (!joints)
    find(plan, LOST, "equality", e + 1, name, "a %s equality", types[m->eq_type[e]]);
  else if (m->eq_obj2id[e] >= 0 && any(m->eq_data + mjNEQDATA * e + 2, 3))
    find(plan, LOST, "equality", e + 1, name, "polycoef past its first two numbers");
  return joints;
}

static void write_equality(Plan* plan, int e) {
  const mjModel* m = plan->model;
  text_add(&plan->text, "\n[[equality]]\n");
  write_name(plan, name_of(m, mjOBJ_EQUALITY, e), "equality", e + 1);
  text_add(&plan->text, "joint1 = ");
  text_string(&plan->text, joint_name(plan, m->eq_obj1id[e]));
  if (m->eq_obj2id[e] >= 0)
    text_add(&plan->text, "\njoint2 = "), text_string(&plan->text, joint_name(plan, m->eq_obj2id[e]));
  text_add(&plan->text, "\n");
  write_key(plan, "polycoef", m->eq_data + mjNEQDATA * e, 2, -1024, 1024, "equality", e + 1);
  write_soft_row(plan, "", m->eq_solref + mjNREF * e, m->eq_solimp + mjNIMP * e, "equality", e + 1);
}

// Whether the model needs format 2: joint friction or an equality of joints.
static bool needs_second_format(const mjModel* m) {
  for (int j = 0; j < m->njnt; j++)
    if (scalar(m, j) && m->dof_frictionloss[m->jnt_dofadr[j]] > 0 && !disabled(m, mjDSBL_FRICTIONLOSS)) return true;
  for (int e = 0; e < m->neq; e++)
    if (m->eq_active[e] && m->eq_type[e] == mjEQ_JOINT && !disabled(m, mjDSBL_EQUALITY)) return true;
  return false;
}

// The keyframe that the words name: from 0, or -1.
static int key_of(Plan* plan) {
  const mjModel* m = plan->model;
  const char* word = plan->words->key;
  if (!word) return -1;
  int key = mj_name2id(m, mjOBJ_KEY, word);
  char* end;
  long number = strtol(word, &end, 10);
  if (key < 0 && !*end && number >= 1 && number <= m->nkey) key = (int)number - 1;
  if (key < 0)
    find(plan, OVER, "keyframe", -1, word, "the model has %d keyframes and none of this name or number", m->nkey);
  return key;
}

// A keyframe's numbers, each of the given size at most; an array even where it has one.
static void write_list(Plan* plan, const char* key, const double* values, int count, double size, int number) {
  for (int k = 0; k < count; k++) within(plan, values[k], -size, size, "keyframe", number, key);
  text_add(&plan->text, "%s = ", key);
  text_numbers(&plan->text, values, count);
  text_add(&plan->text, "\n");
}

static void write_keyframe(Plan* plan, int key) {
  const mjModel* m = plan->model;
  double* places = room_for((size_t)m->nq, sizeof *places);
  mju_copy(places, m->key_qpos + m->nq * key, m->nq);
  for (int j = 0; j < m->njnt; j++)
    if (scalar(m, j)) places[m->jnt_qposadr[j]] -= start_of(m, j);
  text_add(&plan->text, "\n[keyframe]\n");
  write_list(plan, "qpos", places, m->nq, most, key + 1);
  write_list(plan, "qvel", m->key_qvel + m->nv * key, m->nv, 4096, key + 1);
  free(places);
  if (any(m->key_ctrl + m->nu * key, m->nu))
    find(plan, NOTE, "keyframe", key + 1, name_of(m, mjOBJ_KEY, key), "its controls belong into a tape");
}

static void tell_damping(Plan* plan) {
  const mjModel* m = plan->model;
  if (plan->words->explicit_damping || m->opt.integrator == mjINT_RK4) return;
  if (any(m->dof_damping, m->nv))
    find(plan, OTHER, "model", -1, "", "MuJoCo takes damping implicitly: armature has timestep x damping added");
}

void write_model(Plan* plan) {
  const mjModel* m = plan->model;
  const char* slash = strrchr(plan->words->file, '/');
  text_add(&plan->text, "# Made by mjcf2mj from %s, by MuJoCo %s.\n", slash ? slash + 1 : plan->words->file,
           mj_versionString());
  if (needs_second_format(m)) text_add(&plan->text, "format = 2\n");
  judge_option(plan);
  tell_damping(plan);
  write_option(plan);
  if (m->ngeom) text_add(&plan->text, "\n");
  write_geoms(plan, 0);
  write_bodies(plan);
  write_drives(plan);
  int equalities = 0;
  for (int e = 0; e < m->neq; e++) {
    if (!has_equality(plan, e)) continue;
    equalities++;
    write_equality(plan, e);
  }
  within(plan, equalities, 0, 64, "model", -1, "the number of equalities");
  int key = key_of(plan);
  if (key >= 0) write_keyframe(plan, key);
}
