/* The sensor of examples/telemetry/system.toml, and who hears it. */
#include <stddef.h>

#include "qf.h"

enum { SAMPLE_SIG = Q_USER_SIG, TEMP_SIG };
enum { RING = 3, TOO_HOT = 80 };

typedef struct {
    QActive super;
    QTimeEvt period;
    int64_t celsius;
} Sensor;

typedef struct {
    QActive super;
    int64_t last;
} Display;

typedef struct {
    QActive super;
    int64_t count, sum;
} Logger;

static Sensor l_sensor;
static Display l_display;
static Logger l_logger;
static QActive l_alarm;

/* ---- sensor ---- */

static QState Sensor_measuring(QHsm *me, QEvt const *e) {
    Sensor *const sensor = (Sensor *)me;
    switch (e->sig) {
    case Q_ENTRY_SIG:
        QTimeEvt_armX(&sensor->period, 1, 1);
        return Q_HANDLED();
    case SAMPLE_SIG: {
        sensor->celsius += 25;
        QParEvt *const reading = Q_NEW(TEMP_SIG);
        reading->par[0] = (uint64_t)sensor->celsius;
        QACTIVE_PUBLISH(&reading->super, &sensor->super);
        return Q_HANDLED();
    }
    default:
        return Q_SUPER(QHsm_top);
    }
}

static QState Sensor_initial(QHsm *me, QEvt const *e) {
    (void)e;
    return Q_TRAN(Sensor_measuring);
}

/* ---- display, logger ---- */

static QState Display_showing(QHsm *me, QEvt const *e) {
    switch (e->sig) {
    case TEMP_SIG:
        ((Display *)me)->last = (int64_t)Q_PAR(e, 1);
        return Q_HANDLED();
    default:
        return Q_SUPER(QHsm_top);
    }
}

static QState Display_initial(QHsm *me, QEvt const *e) {
    (void)e;
    QActive_subscribe((QActive *)me, TEMP_SIG);
    return Q_TRAN(Display_showing);
}

static QState Logger_logging(QHsm *me, QEvt const *e) {
    Logger *const logger = (Logger *)me;
    switch (e->sig) {
    case TEMP_SIG:
        ++logger->count;
        logger->sum += (int64_t)Q_PAR(e, 1);
        return Q_HANDLED();
    default:
        return Q_SUPER(QHsm_top);
    }
}

static QState Logger_initial(QHsm *me, QEvt const *e) {
    (void)e;
    QActive_subscribe((QActive *)me, TEMP_SIG);
    return Q_TRAN(Logger_logging);
}

/* ---- alarm ---- */

static QState Alarm_ringing(QHsm *me, QEvt const *e) {
    switch (e->sig) {
    case Q_ENTRY_SIG:
        QActive_unsubscribe((QActive *)me, TEMP_SIG);
        return Q_HANDLED();
    default:
        return Q_SUPER(QHsm_top);
    }
}

static QState Alarm_calm(QHsm *me, QEvt const *e) {
    switch (e->sig) {
    case TEMP_SIG:
        if ((int64_t)Q_PAR(e, 1) > TOO_HOT) {
            return Q_TRAN(Alarm_ringing);
        }
        return Q_UNHANDLED();
    default:
        return Q_SUPER(QHsm_top);
    }
}

static QState Alarm_initial(QHsm *me, QEvt const *e) {
    (void)e;
    QActive_subscribe((QActive *)me, TEMP_SIG);
    return Q_TRAN(Alarm_calm);
}

/* ---- the system ---- */

static QStateHandler const l_sensorStates[] = { Sensor_measuring, NULL };
static QStateHandler const l_displayStates[] = { Display_showing, NULL };
static QStateHandler const l_loggerStates[] = { Logger_logging, NULL };
static QStateHandler const l_alarmStates[] = { Alarm_calm, Alarm_ringing, NULL };
static QEvt const *l_rings[4][RING];

static void start(void) {
    QActive_ctor(&l_logger.super, Logger_initial, l_loggerStates);
    QActive_ctor(&l_display.super, Display_initial, l_displayStates);
    QActive_ctor(&l_alarm, Alarm_initial, l_alarmStates);
    QActive_ctor(&l_sensor.super, Sensor_initial, l_sensorStates);
    QTimeEvt_ctorX(&l_sensor.period, &l_sensor.super, SAMPLE_SIG, 0);
    l_sensor.celsius = 20;
    QActive_start(&l_logger.super, "logger", 1, l_rings[0], RING, NULL, 0);
    QActive_start(&l_display.super, "display", 2, l_rings[1], RING, NULL, 0);
    QActive_start(&l_alarm, "alarm", 3, l_rings[2], RING, NULL, 0);
    QActive_start(&l_sensor.super, "sensor", 4, l_rings[3], RING, NULL, 0);
}

static QF_Signal const l_signals[] = { { "SAMPLE", 0, true }, { "TEMP", 1, false } };
static QF_Pool const l_pools[] = { { 1, 4 } };
QF_App const QF_app = { l_signals, 2, l_pools, 1, start };
