// Runs a machine on Qt's QStateMachine, and writes its log: `post SIGNAL`, `exit vN`, `effect tN OUT ..`, `enter vN`, a line each.
//
//     qt_statemachine FILE SIGNAL ..
//
// FILE has a line for each State, outer before inner, and for each transition:
//     state NAME PARENT exclusive|parallel first|later
//     final NAME PARENT
//     history NAME PARENT shallow|deep DEFAULT
//     transition NAME SOURCE TARGET|- external|internal SIGNAL|done|nothing 0|1|- stays|toggles
// A State whose name begins with r stands for a region, and is not logged. A signal is posted when the machine has come to rest.

#include <QAbstractEventDispatcher>
#include <QCoreApplication>
#include <QFile>
#include <QFinalState>
#include <QHash>
#include <QHistoryState>
#include <QSignalTransition>
#include <QState>
#include <QStateMachine>
#include <QStringList>
#include <cstdio>

static int x = 0;

static void say(const QString &line)
{
    std::puts(qPrintable(line));
}

struct Signal : QEvent
{
    QString name;
    explicit Signal(const QString &given) : QEvent(QEvent::User), name(given) {}
};

template <typename Base>
struct Logged : Base
{
    QString name;
    Logged(const QString &given, QState *parent) : Base(parent), name(given) {}
    void onEntry(QEvent *event) override
    {
        Base::onEntry(event);
        log(QStringLiteral("enter "));
    }
    void onExit(QEvent *event) override
    {
        Base::onExit(event);
        log(QStringLiteral("exit "));
    }
    void log(const QString &word) const
    {
        if (name.startsWith(QLatin1Char('v')))
            say(word + name);
    }
};

// What a transition asks for and does.
struct Deed
{
    QString name, guard;
    bool toggles;
    bool lets() const { return guard == QLatin1String("-") || guard.toInt() == x; }
    void run() const
    {
        QString line = QStringLiteral("effect ") + name;
        if (toggles) {
            x = 1 - x;
            line += QStringLiteral(" !now(%1)").arg(x);
        }
        say(line);
    }
};

struct OnSignal : QAbstractTransition
{
    Deed deed;
    QString signal;
    OnSignal(const Deed &given, const QString &listed) : deed(given), signal(listed) {}
    bool eventTest(QEvent *event) override
    {
        if (signal == QLatin1String("nothing"))
            return event->type() == QEvent::None && deed.lets();
        return event->type() == QEvent::User && static_cast<Signal *>(event)->name == signal && deed.lets();
    }
    void onTransition(QEvent *) override { deed.run(); }
};

struct OnDone : QSignalTransition
{
    Deed deed;
    OnDone(const Deed &given, QState *source) : QSignalTransition(source, &QState::finished), deed(given) {}
    bool eventTest(QEvent *event) override { return QSignalTransition::eventTest(event) && deed.lets(); }
    void onTransition(QEvent *) override { deed.run(); }
};

int main(int count, char **words)
{
    QCoreApplication application(count, words);
    const QStringList arguments = application.arguments();
    QFile file(arguments.value(1));
    if (!file.open(QIODevice::ReadOnly))
        return 2;
    QStateMachine machine;
    QHash<QString, QAbstractState *> states{{QStringLiteral("machine"), &machine}};
    const auto state = [&states](const QString &name) { return static_cast<QState *>(states.value(name)); };
    for (const QString &line : QString::fromUtf8(file.readAll()).split(QLatin1Char('\n'), Qt::SkipEmptyParts)) {
        const QStringList part = line.split(QLatin1Char(' '));
        if (part[0] == QLatin1String("state")) {
            QState *made = new Logged<QState>(part[1], state(part[2]));
            made->setChildMode(part[3] == QLatin1String("parallel") ? QState::ParallelStates : QState::ExclusiveStates);
            states.insert(part[1], made);
            if (part[4] == QLatin1String("first"))
                state(part[2])->setInitialState(made);
        } else if (part[0] == QLatin1String("final")) {
            states.insert(part[1], new Logged<QFinalState>(part[1], state(part[2])));
        } else if (part[0] == QLatin1String("history")) {
            auto *made = new QHistoryState(state(part[2]));
            made->setHistoryType(part[3] == QLatin1String("deep") ? QHistoryState::DeepHistory : QHistoryState::ShallowHistory);
            made->setDefaultState(states.value(part[4]));
            states.insert(part[1], made);
        } else {
            const Deed deed{part[1], part[6], part[7] == QLatin1String("toggles")};
            QState *source = state(part[2]);
            QAbstractTransition *made = nullptr;
            if (part[5] == QLatin1String("done"))
                made = new OnDone(deed, source);
            else
                made = new OnSignal(deed, part[5]);
            source->addTransition(made);
            if (part[3] != QLatin1String("-"))
                made->setTargetState(states.value(part[3]));
            if (part[4] == QLatin1String("internal"))
                made->setTransitionType(QAbstractTransition::InternalTransition);
        }
    }
    const auto rest = []() {
        while (QAbstractEventDispatcher::instance()->processEvents(QEventLoop::AllEvents)) {
        }
    };
    machine.start();
    rest();
    for (const QString &signal : arguments.mid(2)) {
        say(QStringLiteral("post ") + signal);
        machine.postEvent(new Signal(signal));
        rest();
    }
    return 0;
}
