/* The methods and events of PipeWire's interfaces by their opcodes, as the headers of PipeWire 1.4.2 number them: PW_CORE_METHOD_HELLO 1 is the word
 * `hello` of Core, behind `add_listener`. 0.3.65 has the same numbers, without Core's bound_props and SecurityContext. `check` compares this with the
 * headers that are installed. */
#ifndef PROTOCOL_H
#define PROTOCOL_H

#include <stdbool.h>
#include <stddef.h>

/* What stands before an interface's name: pipewire/type.h. */
#define PIPEWIRE "PipeWire:Interface:"

static const struct interface {
	const char *type, *methods, *events;
	/* Whether what a client creates of it, by create_object, is the client's to serve: the daemon calls its methods, and the client sends its events.
	 * These are the marshals with the flag PW_PROTOCOL_MARSHAL_FLAG_IMPL. */
	bool is_exported;
} interfaces[] = {
	/* pipewire/core.h */
	{ PIPEWIRE "Core", "add_listener hello sync pong error get_registry create_object destroy",
		"info done ping error remove_id bound_id add_mem remove_mem bound_props", false },
	{ PIPEWIRE "Registry", "add_listener bind destroy", "global global_remove", false },
	/* pipewire/client.h, device.h, factory.h, link.h, module.h, node.h, port.h */
	{ PIPEWIRE "Client", "add_listener error update_properties get_permissions update_permissions", "info permissions", false },
	{ PIPEWIRE "Device", "add_listener subscribe_params enum_params set_param", "info param", false },
	{ PIPEWIRE "Factory", "add_listener", "info", false },
	{ PIPEWIRE "Link", "add_listener", "info", false },
	{ PIPEWIRE "Module", "add_listener", "info", false },
	{ PIPEWIRE "Node", "add_listener subscribe_params enum_params set_param send_command", "info param", false },
	{ PIPEWIRE "Port", "add_listener subscribe_params enum_params", "info param", false },
	/* pipewire/extensions/client-node.h, metadata.h, profiler.h, security-context.h */
	{ PIPEWIRE "ClientNode", "add_listener get_node update port_update set_active event port_buffers",
		"transport set_param set_io event command add_port remove_port port_set_param port_use_buffers port_set_io set_activation "
		"port_set_mix_info", false },
	{ PIPEWIRE "Metadata", "add_listener set_property clear", "property", true },
	{ PIPEWIRE "Profiler", "add_listener", "profile", false },
	{ PIPEWIRE "SecurityContext", "add_listener create", "", false },
	/* pipewire/extensions/session-manager/impl-interfaces.h, interfaces.h */
	{ PIPEWIRE "ClientEndpoint", "add_listener update stream_update", "set_session_id set_param stream_set_param create_link", false },
	{ PIPEWIRE "ClientSession", "add_listener update link_update", "set_param link_set_param link_request_state", false },
	{ PIPEWIRE "Session", "add_listener subscribe_params enum_params set_param create_link", "info param", true },
	{ PIPEWIRE "Endpoint", "add_listener subscribe_params enum_params set_param create_link", "info param", true },
	{ PIPEWIRE "EndpointStream", "add_listener subscribe_params enum_params set_param", "info param", true },
	{ PIPEWIRE "EndpointLink", "add_listener subscribe_params enum_params set_param request_state destroy", "info param", true },
	/* spa/monitor/device.h */
	{ "Spa:Pointer:Interface:Device", "add_listener sync enum_params set_param", "info result event object_info", true },
};

/* The messages that say which interface an object of the client has from then on: `gives`, none where that is empty, or where it is NULL the text of
 * the struct's member 1. `object` is the member that is the object's id. As PipeWire's module-protocol-native and module-client-node write them. */
static const struct assignment {
	const char *interface, *method, *gives;
	size_t object;
} assignments[] = {
	{ "Core", "get_registry", PIPEWIRE "Registry", 1 },
	{ "Core", "create_object", NULL, 4 },
	{ "Registry", "bind", NULL, 3 },
	{ "ClientNode", "get_node", PIPEWIRE "Node", 1 },
	{ "Core", "remove_id", "", 0 },
};

#endif
