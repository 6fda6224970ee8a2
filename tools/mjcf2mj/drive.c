// Motors, servos, springs and fixed tendons. mj measures a joint from qpos0 and knows no servo: the force of one,
//   g (gain u + b0 + b1 g x + b2 g x'),   x the joint's place, g its gear,
// is a motor of gear g gain, a spring of stiffness -b1 g^2, a damping -b2 g^2 and a pull g b0, and two springs are one.
#include <math.h>
#include <stdio.h>
#include <stdlib.h>

#include "plan.h"

// What servos add to a joint's or tendon's spring: newtons (or newton metres) a metre (or radian), and newtons.
typedef struct {
  double stiffness, pull;
} Servo;

static const double most = 1048576, most_gear = 1024;

static bool is_fixed(const mjModel* m, int tendon) { return m->wrap_type[m->tendon_adr[tendon]] == mjWRAP_JOINT; }

// A fixed tendon's length at qpos0, from which mj measures.
static double tendon_start(const mjModel* m, int tendon) {
  double length = 0;
  for (int k = 0; k < m->tendon_num[tendon]; k++) {
    int at = m->tendon_adr[tendon] + k;
    length += m->wrap_prm[at] * m->qpos0[m->jnt_qposadr[m->wrap_objid[at]]];
  }
  return length;
}

static bool has_motor(const mjModel* m, int tendon) {
  for (int i = 0; i < m->nu; i++)
    if (m->actuator_trntype[i] == mjTRN_TENDON && m->actuator_trnid[2 * i] == tendon) return true;
  return false;
}

// Springs and dampers as the model has them, before servos.
static void own_springs(Plan* plan) {
  const mjModel* m = plan->model;
  bool passive = !disabled(m, mjDSBL_PASSIVE);
  for (int j = 0; j < m->njnt; j++) {
    int at = m->jnt_qposadr[j];
    plan->joint[j].damping = passive ? m->dof_damping[m->jnt_dofadr[j]] : 0;
    if (!passive || !m->jnt_stiffness[j]) continue;
    if (scalar(m, j)) {
      plan->joint[j].stiffness = m->jnt_stiffness[j];
      plan->joint[j].rest = m->qpos_spring[at] - m->qpos0[at];
    } else {
      find(plan, LOST, "joint", j + 1, joint_name(plan, j), "the spring of a ball or free joint");
    }
  }
  for (int t = 0; t < m->ntendon; t++) {
    if (!passive || !is_fixed(m, t)) continue;
    plan->tendon[t].stiffness = m->tendon_stiffness[t];
    plan->tendon[t].damping = m->tendon_damping[t];
    if (m->tendon_stiffness[t]) plan->tendon[t].rest = m->tendon_lengthspring[t] - tendon_start(m, t);
  }
}

// Joins a spring with what servos add to it.
static void settle(Plan* plan, Spring* spring, Servo servo, const char* object, int number, const char* name) {
  double stiffness = spring->stiffness + servo.stiffness;
  if (servo.stiffness || servo.pull) {
    double pull = spring->stiffness * spring->rest + servo.pull;
    bool slack = fabs(stiffness) <= 1e-14 * fabs(spring->stiffness);
    if (slack && pull) find(plan, LOST, object, number, name, "a constant force %.6g (bias of its actuators)", pull);
    spring->stiffness = slack ? 0 : stiffness;
    spring->rest = slack ? 0 : pull / stiffness;
  }
  if (spring->stiffness < 0) find(plan, LOST, object, number, name, "a stiffness below 0: %.6g", spring->stiffness);
  if (spring->damping < 0) find(plan, LOST, object, number, name, "a damping below 0: %.6g", spring->damping);
  spring->stiffness = fmax(spring->stiffness, 0);
  spring->damping = fmax(spring->damping, 0);
}

// Why mj can't have the actuator, or NULL.
static const char* foreign(const mjModel* m, int i) {
  int kind = m->actuator_trntype[i], target = m->actuator_trnid[2 * i];
  const mjtNum* gain = m->actuator_gainprm + mjNGAIN * i;
  if (kind == mjTRN_TENDON && !is_fixed(m, target)) return "an actuator on a spatial tendon";
  if (kind == mjTRN_SITE) return "an actuator on a site";
  if (kind == mjTRN_BODY) return "adhesion";
  if (kind == mjTRN_SLIDERCRANK) return "a slider-crank";
  if (kind != mjTRN_TENDON && !scalar(m, target)) return "an actuator on a ball or free joint";
  if (m->actuator_dyntype[i] == mjDYN_MUSCLE || m->actuator_gaintype[i] == mjGAIN_MUSCLE) return "a muscle";
  if (m->actuator_dyntype[i] != mjDYN_NONE) return "an activation state";
  if (m->actuator_gaintype[i] == mjGAIN_AFFINE && (gain[1] || gain[2]))
    return "a gain that depends on place or velocity";
  if (m->actuator_gaintype[i] > mjGAIN_AFFINE || m->actuator_biastype[i] > mjBIAS_AFFINE) return "a rule of its own";
  return NULL;
}

// Cuts the range of controls to that of the force, which is gain times the control.
static void cut_range(Plan* plan, Motor* motor, double gain) {
  const mjModel* m = plan->model;
  int i = motor->actuator;
  const char* name = name_of(m, mjOBJ_ACTUATOR, i);
  if (m->actuator_ctrllimited[i] && !disabled(m, mjDSBL_CLAMPCTRL)) {
    motor->limited = true;
    for (int k = 0; k < 2; k++) motor->range[k] = m->actuator_ctrlrange[2 * i + k];
  }
  if (m->actuator_forcelimited[i] && gain) {
    double a = m->actuator_forcerange[2 * i] / gain, b = m->actuator_forcerange[2 * i + 1] / gain;
    double low = fmin(a, b), high = fmax(a, b);
    motor->range[0] = motor->limited ? fmax(motor->range[0], low) : low;
    motor->range[1] = motor->limited ? fmin(motor->range[1], high) : high;
    motor->limited = true;
  }
  if (motor->limited && !(motor->range[0] < motor->range[1])) {
    find(plan, LOST, "actuator", i + 1, name, "its ranges leave one force alone; mj lets it free");
    motor->limited = false;
  }
}

static void add_actuator(Plan* plan, int i, Servo* joints, Servo* tendons) {
  const mjModel* m = plan->model;
  const char* name = name_of(m, mjOBJ_ACTUATOR, i);
  const char* fault = foreign(m, i);
  if (fault) {
    find(plan, LOST, "actuator", i + 1, name, "%s; a tape has no column for it", fault);
    return;
  }
  bool on_tendon = m->actuator_trntype[i] == mjTRN_TENDON, off = disabled(m, mjDSBL_ACTUATION);
  int target = m->actuator_trnid[2 * i];
  double gear = m->actuator_gear[6 * i], gain = off ? 0 : m->actuator_gainprm[mjNGAIN * i];
  const mjtNum* bias = m->actuator_biasprm + mjNBIAS * i;
  Motor* motor = plan->motors + plan->motor_count++;
  *motor =
      (Motor){.actuator = i, .joint = on_tendon ? -1 : target, .tendon = on_tendon ? target : -1, .gear = gear * gain};
  cut_range(plan, motor, gain);
  if (off || m->actuator_biastype[i] == mjBIAS_NONE || !(bias[0] || bias[1] || bias[2])) return;
  if (m->actuator_forcelimited[i]) find(plan, LOST, "actuator", i + 1, name, "the force range of a servo");
  Servo* servo = on_tendon ? tendons + target : joints + target;
  double start = on_tendon ? tendon_start(m, target) : start_of(m, target);
  servo->stiffness -= bias[1] * gear * gear;
  servo->pull += gear * bias[0] + bias[1] * gear * gear * start;
  Spring* spring = on_tendon ? plan->tendon + target : plan->joint + target;
  spring->damping -= bias[2] * gear * gear;
}

void drive(Plan* plan) {
  const mjModel* m = plan->model;
  plan->joint = room_for((size_t)m->njnt, sizeof *plan->joint);
  plan->tendon = room_for((size_t)m->ntendon, sizeof *plan->tendon);
  plan->motors = room_for((size_t)m->nu, sizeof *plan->motors);
  Servo* joints = room_for((size_t)m->njnt, sizeof *joints);
  Servo* tendons = room_for((size_t)m->ntendon, sizeof *tendons);
  own_springs(plan);
  for (int i = 0; i < m->nu; i++) add_actuator(plan, i, joints, tendons);
  for (int j = 0; j < m->njnt; j++) settle(plan, plan->joint + j, joints[j], "joint", j + 1, joint_name(plan, j));
  for (int t = 0; t < m->ntendon; t++)
    if (is_fixed(m, t)) settle(plan, plan->tendon + t, tendons[t], "tendon", t + 1, name_of(m, mjOBJ_TENDON, t));
  free(joints);
  free(tendons);
}

// The joints of a fixed tendon, each once: MuJoCo may name one twice, and the coefficients add.
static void write_joints(Plan* plan, int tendon) {
  const mjModel* m = plan->model;
  int from = m->tendon_adr[tendon], to = from + m->tendon_num[tendon];
  text_add(&plan->text, "joint = [");
  for (int at = from, written = 0; at < to; at++) {
    bool met = false;
    double coef = 0;
    for (int other = from; other < to; other++) {
      if (m->wrap_objid[other] != m->wrap_objid[at]) continue;
      if (other < at) met = true;
      coef += m->wrap_prm[other];
    }
    if (met) continue;
    within(plan, coef, -most_gear, most_gear, "tendon", tendon + 1, "coef");
    text_add(&plan->text, "%s{ joint = ", written++ ? ", " : "");
    text_string(&plan->text, joint_name(plan, m->wrap_objid[at]));
    text_add(&plan->text, ", coef = ");
    text_number(&plan->text, coef);
    text_add(&plan->text, " }");
  }
  text_add(&plan->text, "]\n");
}

static void write_key(Plan* plan, const char* key, double value, double low, double high, const char* object,
                      int number) {
  if (!value) return;
  within(plan, value, low, high, object, number, key);
  text_add(&plan->text, "%s = ", key);
  text_number(&plan->text, value);
  text_add(&plan->text, "\n");
}

static void write_tendon(Plan* plan, int tendon) {
  const mjModel* m = plan->model;
  const Spring* spring = plan->tendon + tendon;
  int number = tendon + 1;
  text_add(&plan->text, "\n[[tendon]]\nname = ");
  text_string(&plan->text, name_of(m, mjOBJ_TENDON, tendon));
  text_add(&plan->text, "\n");
  write_joints(plan, tendon);
  bool limited = m->tendon_limited[tendon] && !disabled(m, mjDSBL_LIMIT);
  if (limited) {
    double start = tendon_start(m, tendon), range[2];
    for (int k = 0; k < 2; k++) {
      range[k] = m->tendon_range[2 * tendon + k] - start;
      within(plan, range[k], -most, most, "tendon", number, "range");
    }
    text_add(&plan->text, "range = ");
    text_numbers(&plan->text, range, 2);
    text_add(&plan->text, "\n");
    write_key(plan, "margin", m->tendon_margin[tendon], 0, 1024, "tendon", number);
  }
  write_key(plan, "stiffness", spring->stiffness, 0, most, "tendon", number);
  write_key(plan, "damping", spring->damping, 0, most, "tendon", number);
  write_key(plan, "springlength", spring->rest, -most, most, "tendon", number);
  if (limited)
    write_soft_row(plan, "limit", m->tendon_solref_lim + mjNREF * tendon, m->tendon_solimp_lim + mjNIMP * tendon,
                   "tendon", number);
}

// Whether the tendon is written; what of it is lost is told.
static bool keeps(Plan* plan, int tendon) {
  const mjModel* m = plan->model;
  const char* name = name_of(m, mjOBJ_TENDON, tendon);
  bool passive = !disabled(m, mjDSBL_PASSIVE);
  bool limited = m->tendon_limited[tendon] && !disabled(m, mjDSBL_LIMIT);
  bool rubs = m->tendon_frictionloss[tendon] > 0 && !disabled(m, mjDSBL_FRICTIONLOSS);
  if (is_fixed(m, tendon)) {
    if (rubs) find(plan, LOST, "tendon", tendon + 1, name, "frictionloss of a tendon");
    return true;
  }
  bool pulls = passive && (m->tendon_stiffness[tendon] || m->tendon_damping[tendon]);
  if (pulls || limited || rubs || has_motor(m, tendon))
    find(plan, LOST, "tendon", tendon + 1, name, "a spatial tendon");
  else
    find(plan, NOTE, "tendon", tendon + 1, name, "a spatial tendon without forces is left out");
  return false;
}

// A gear past mj's limit is a tendon of the one joint: coef times gear. coef: a power of two.
static double tendon_coef(const Motor* motor) {
  double coef = 1;
  while (fabs(motor->gear) > most_gear * coef && coef < most_gear) coef *= 2;
  return motor->tendon >= 0 ? 1 : coef;
}

static void write_motor(Plan* plan, const Motor* motor) {
  const mjModel* m = plan->model;
  int number = motor->actuator + 1;
  const char* name = name_of(m, mjOBJ_ACTUATOR, motor->actuator);
  double coef = tendon_coef(motor);
  text_add(&plan->text, "\n[[motor]]\nname = ");
  text_string(&plan->text, name);
  text_add(&plan->text, motor->tendon >= 0 || coef > 1 ? "\ntendon = " : "\njoint = ");
  char geared[80];
  snprintf(geared, sizeof geared, "gear of %.60s", name);
  text_string(&plan->text, coef > 1             ? geared
                           : motor->tendon >= 0 ? name_of(m, mjOBJ_TENDON, motor->tendon)
                                                : joint_name(plan, motor->joint));
  text_add(&plan->text, "\n");
  double gear = motor->gear / coef;
  within(plan, gear, -most_gear, most_gear, "actuator", number, "gear");
  if (gear != 1) {
    text_add(&plan->text, "gear = ");
    text_number(&plan->text, gear);
    text_add(&plan->text, "\n");
  }
  if (!motor->limited) return;
  for (int k = 0; k < 2; k++) within(plan, motor->range[k], -most, most, "actuator", number, "ctrlrange");
  text_add(&plan->text, "ctrlrange = ");
  text_numbers(&plan->text, motor->range, 2);
  text_add(&plan->text, "\n");
}

void write_drives(Plan* plan) {
  const mjModel* m = plan->model;
  int tendons = 0;
  for (int t = 0; t < m->ntendon; t++) {
    if (!keeps(plan, t)) continue;
    tendons++;
    write_tendon(plan, t);
  }
  for (int i = 0; i < plan->motor_count; i++) {
    const Motor* motor = plan->motors + i;
    double coef = tendon_coef(motor);
    if (coef == 1) continue;
    tendons++;
    text_add(&plan->text, "\n# A gear past 1024: coef times gear is %.6g.\n[[tendon]]\nname = ", motor->gear);
    char geared[80];
    snprintf(geared, sizeof geared, "gear of %.60s", name_of(m, mjOBJ_ACTUATOR, motor->actuator));
    text_string(&plan->text, geared);
    text_add(&plan->text, "\njoint = [{ joint = ");
    text_string(&plan->text, joint_name(plan, motor->joint));
    text_add(&plan->text, ", coef = %.0f }]\n", coef);
  }
  within(plan, tendons, 0, 64, "model", -1, "the number of tendons");
  within(plan, plan->motor_count, 0, 64, "model", -1, "the number of motors");
  if (plan->motor_count)
    text_add(&plan->text, "\n# A record of a tape has a control for each of these, in this order.");
  for (int i = 0; i < plan->motor_count; i++) write_motor(plan, plan->motors + i);
}
