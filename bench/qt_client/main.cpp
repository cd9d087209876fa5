// Asks a server for routes through QtLocation's plugin for the OSRM API, as a map in Qt does, and prints what Qt reads from
// each reply: metres, seconds, steps, points of the line, and the instructions of the steps that have one.
//
//     qt_client URL 'LON,LAT;LON,LAT[;LON,LAT..]' ..
//
// URL is that of the service, as http://127.0.0.1:5000/route/v1/car/. The status is 1 where a reply has no route.
#include <QCoreApplication>
#include <QEventLoop>
#include <QGeoManeuver>
#include <QGeoRouteReply>
#include <QGeoRouteSegment>
#include <QGeoRoutingManager>
#include <QGeoServiceProvider>
#include <QTextStream>

// The request for a route through the places of a text.
static QGeoRouteRequest request_of(const QString &text) {
    QList<QGeoCoordinate> places;
    for (const QString &place : text.split(';')) {
        places.append(QGeoCoordinate(place.section(',', 1).toDouble(), place.section(',', 0, 0).toDouble()));
    }
    return QGeoRouteRequest(places);
}

// Prints a route.
static void print(QTextStream &out, const QGeoRoute &route) {
    QStringList steps;
    for (QGeoRouteSegment it = route.firstRouteSegment(); it.isValid(); it = it.nextRouteSegment()) {
        steps.append(it.maneuver().instructionText());
    }
    out << route.distance() << " m, " << route.travelTime() << " s, " << steps.size() << " steps, " << route.path().size()
        << " points\n";
    for (const QString &step : steps) {
        out << "    " << step << "\n";
    }
}

int main(int count, char **words) {
    QCoreApplication application(count, words);
    QTextStream out(stdout);
    const QStringList routes = application.arguments().mid(2);
    const QVariantMap parameters = {{"osm.routing.host", application.arguments().value(1)}, {"osm.useragent", "qt_client"}};
    QGeoServiceProvider provider("osm", parameters);
    QGeoRoutingManager *manager = provider.routingManager();
    if (routes.isEmpty() || manager == nullptr) {
        out << "usage: qt_client URL 'LON,LAT;LON,LAT' .. " << provider.errorString() << "\n";
        return 2;
    }
    bool fine = true;
    for (const QString &text : routes) {
        QGeoRouteReply *reply = manager->calculateRoute(request_of(text));
        QEventLoop waiting;
        QObject::connect(reply, &QGeoRouteReply::finished, &waiting, &QEventLoop::quit);
        if (!reply->isFinished()) {
            waiting.exec();
        }
        fine = fine && !reply->routes().isEmpty();
        out << text << ": " << reply->routes().size() << " routes " << reply->errorString() << "\n";
        for (const QGeoRoute &route : reply->routes()) {
            print(out, route);
        }
        reply->deleteLater();
    }
    return fine ? 0 : 1;
}
