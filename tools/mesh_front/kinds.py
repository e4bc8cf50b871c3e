"""The kinds of objects that a feed holds, and their collections in the Kubernetes API."""

from dataclasses import dataclass

POLICY = "policy.linkerd.io"
GATEWAY = "gateway.networking.k8s.io"


@dataclass(frozen=True)
class Kind:
    """A kind with its API group, the version that is recorded if the cluster has it, and its name in paths."""

    name: str
    group: str
    version: str
    plural: str

    @property
    def api_version(self) -> str:
        """The `apiVersion` of an object of this kind."""
        return f"{self.group}/{self.version}" if self.group else self.version

    @property
    def title(self) -> str:
        """The kind as people read it: with its group where two groups have the kind."""
        return f"{self.name}.{self.group}" if self.name == "HTTPRoute" else self.name


SERVICE = Kind("Service", "", "v1", "services")
POD = Kind("Pod", "", "v1", "pods")
SLICE = Kind("EndpointSlice", "discovery.k8s.io", "v1", "endpointslices")
PROFILE = Kind("ServiceProfile", "linkerd.io", "v1alpha2", "serviceprofiles")
SERVER = Kind("Server", POLICY, "v1beta3", "servers")
SERVER_AUTHORIZATION = Kind("ServerAuthorization", POLICY, "v1beta1", "serverauthorizations")
AUTHORIZATION_POLICY = Kind("AuthorizationPolicy", POLICY, "v1alpha1", "authorizationpolicies")
MESH_AUTHENTICATION = Kind("MeshTLSAuthentication", POLICY, "v1alpha1", "meshtlsauthentications")
NETWORK_AUTHENTICATION = Kind("NetworkAuthentication", POLICY, "v1alpha1", "networkauthentications")
LINKERD_ROUTE = Kind("HTTPRoute", POLICY, "v1beta3", "httproutes")
GATEWAY_ROUTE = Kind("HTTPRoute", GATEWAY, "v1", "httproutes")

KINDS = (
    SERVICE,
    POD,
    SLICE,
    PROFILE,
    SERVER,
    SERVER_AUTHORIZATION,
    AUTHORIZATION_POLICY,
    MESH_AUTHENTICATION,
    NETWORK_AUTHENTICATION,
    LINKERD_ROUTE,
    GATEWAY_ROUTE,
)

ROUTE_KINDS = (LINKERD_ROUTE, GATEWAY_ROUTE)
POLICY_KINDS = (POD, SERVER, SERVER_AUTHORIZATION, AUTHORIZATION_POLICY, MESH_AUTHENTICATION, NETWORK_AUTHENTICATION, *ROUTE_KINDS)
ENDPOINT_KINDS = (SERVICE, SLICE, POD)

# A server is filled in this order: a port has its policy from the first moment if all that the policy consists of is there before the Pod.
PROTECTING_KINDS = (
    MESH_AUTHENTICATION,
    NETWORK_AUTHENTICATION,
    SERVER_AUTHORIZATION,
    AUTHORIZATION_POLICY,
    LINKERD_ROUTE,
    GATEWAY_ROUTE,
    SERVER,
)
FILL_ORDER = (*PROTECTING_KINDS, PROFILE, POD, SLICE, SERVICE)


def kind_of(name: object, api_version: object) -> Kind | None:
    """The kind with this name and the group of this `apiVersion`, or None."""
    group = api_version.split("/")[0] if isinstance(api_version, str) and "/" in api_version else ""
    return next((kind for kind in KINDS if (kind.name, kind.group) == (name, group)), None)
