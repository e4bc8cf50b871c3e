"""Makes the lines of a feed as an API server writes them, for the measurements in this folder."""
import json


def text_of(value):
    """A value as a line."""
    return json.dumps(value, separators=(",", ":"))


def joined(*parts):
    """The lines of some feeds, one after another."""
    for part in parts:
        yield from part


def managed_fields(manager, stamp):
    return [{
        "manager": manager, "operation": "Update", "apiVersion": "discovery.k8s.io/v1", "time": stamp,
        "fieldsType": "FieldsV1",
        "fieldsV1": {"f:addressType": {}, "f:endpoints": {}, "f:ports": {},
                     "f:metadata": {"f:labels": {".": {}}}},
    }]


def stamp_of(number):
    return "2026-03-%02dT%02d:%02d:%02dZ" % (number % 28 + 1, number % 24, number % 60, number // 60 % 60)


def address_of(number):
    return "10.%d.%d.%d" % (number // 62500 % 250, number // 250 % 250, number % 250)


def endpoint(number):
    """One endpoint, and the Pod that it targets by name."""
    return {
        "addresses": [address_of(number)],
        "conditions": {"ready": True, "serving": True, "terminating": False},
        "nodeName": "worker-%d" % (number % 97), "zone": "eu-central-1a",
        "targetRef": {"kind": "Pod", "namespace": "app", "name": "web-%d-0" % number,
                      "uid": "7d0f0d5e-0000-4000-8000-%012d" % (number * 2)},
    }


def slice_line(number, service, kind="ADDED", endpoints=None):
    """One EndpointSlice: of one endpoint, about 1.2 KB, unless its endpoints are given."""
    stamp = stamp_of(number)
    name = "web-%d-%05x" % (service, number)
    endpoints = [endpoint(number)] if endpoints is None else endpoints
    return text_of({
        "type": kind,
        "object": {
            "kind": "EndpointSlice", "apiVersion": "discovery.k8s.io/v1",
            "metadata": {
                "name": name, "generateName": "web-%d-" % service, "namespace": "app",
                "uid": "2b3c4d5e-0000-4000-8000-%012d" % number, "resourceVersion": str(100000 + number), "generation": 2,
                "creationTimestamp": stamp,
                "labels": {"app.kubernetes.io/name": "web", "endpointslice.kubernetes.io/managed-by":
                           "endpointslice-controller.k8s.io", "kubernetes.io/service-name": "web-%d" % service},
                "ownerReferences": [{"apiVersion": "v1", "kind": "Service", "name": "web-%d" % service,
                                     "uid": "0a1b2c3d-0000-4000-8000-%012d" % service, "controller": True,
                                     "blockOwnerDeletion": True}],
                "managedFields": managed_fields("kube-controller-manager", stamp),
            },
            "addressType": "IPv4", "endpoints": endpoints,
            "ports": [{"name": "http", "port": 8080, "protocol": "TCP"}],
        },
    })


def pod_line(number):
    """The Pod that an endpoint targets, in the mesh, about 0.9 KB."""
    return text_of({
        "type": "ADDED",
        "object": {
            "kind": "Pod", "apiVersion": "v1",
            "metadata": {
                "name": "web-%d-0" % number, "generateName": "web-", "namespace": "app",
                "uid": "7d0f0d5e-0000-4000-8000-%012d" % (number * 2), "resourceVersion": str(300000 + number),
                "creationTimestamp": stamp_of(number),
                "labels": {"app": "web", "linkerd.io/control-plane-ns": "linkerd", "pod-template-hash": "5d4f8c7b6"},
                "annotations": {"linkerd.io/proxy-version": "edge-26.3.1"},
                "managedFields": managed_fields("kubelet", stamp_of(number)),
            },
            "spec": {
                "serviceAccountName": "web", "nodeName": "worker-%d" % (number % 97),
                "containers": [{"name": "web", "image": "registry.example.com/web:1",
                                "ports": [{"name": "http", "containerPort": 8080, "protocol": "TCP"}]}],
            },
            "status": {"phase": "Running", "podIP": address_of(number), "podIPs": [{"ip": address_of(number)}],
                       "conditions": [{"type": "Ready", "status": "True"}]},
        },
    })


def service_line(service):
    return text_of({
        "type": "ADDED",
        "object": {
            "kind": "Service", "apiVersion": "v1",
            "metadata": {"name": "web-%d" % service, "namespace": "app", "resourceVersion": str(service + 1)},
            "spec": {"type": "ClusterIP", "clusterIP": "10.96.%d.%d" % (service // 250, service % 250 + 1),
                     "ports": [{"name": "http", "port": 80, "protocol": "TCP", "targetPort": 8080}]},
        },
    })


def subscribe_line(number, service):
    query = {"method": "Get", "path": "web-%d.app.svc.cluster.local:80" % service}
    return text_of({"control": "subscribe", "id": number, "query": query})


def drain_line(number):
    return text_of({"control": "drain", "id": number})
