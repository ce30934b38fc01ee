// Runs an SCXML document on Qt SCXML, and writes what its <log> elements say, a line each: `LABEL TEXT`.
//
//     qt_scxml DOCUMENT SIGNAL ..
//
// A signal is submitted when the machine has come to rest after the one before; a line `post SIGNAL` says when.
// Build: g++ -O1 -fPIC qt_scxml.cpp -o qt_scxml $(pkg-config --cflags --libs Qt6Scxml)

#include <QAbstractEventDispatcher>
#include <QCoreApplication>
#include <QScxmlError>
#include <QScxmlStateMachine>
#include <QStringList>
#include <cstdio>

static void say(const QString &line)
{
    std::puts(qPrintable(line));
}

int main(int count, char **words)
{
    qputenv("QT_LOGGING_RULES", "scxml.statemachine.debug=false;qt.scxml.statemachine.debug=false");
    QCoreApplication application(count, words);
    const QStringList arguments = application.arguments();
    if (arguments.size() < 2)
        return 2;
    QScxmlStateMachine *machine = QScxmlStateMachine::fromFile(arguments[1]);
    for (const QScxmlError &error : machine->parseErrors())
        std::fprintf(stderr, "%s\n", qPrintable(error.toString()));
    if (!machine->parseErrors().isEmpty())
        return 3;
    QObject::connect(machine, &QScxmlStateMachine::log,
                     [](const QString &label, const QString &text) { say(label + QLatin1Char(' ') + text); });
    // The machine is at rest once its thread has no event left.
    const auto rest = []() {
        while (QAbstractEventDispatcher::instance()->processEvents(QEventLoop::AllEvents)) {
        }
    };
    machine->start();
    rest();
    for (const QString &signal : arguments.mid(2)) {
        say(QStringLiteral("post ") + signal);
        machine->submitEvent(signal);
        rest();
    }
    return 0;
}
