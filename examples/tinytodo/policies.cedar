// Any user may create a list, and see which lists there are.
@id("anyone-creates")
permit(principal, action in [Action::"CreateList", Action::"GetLists"], resource == Application::"TinyTodo");

// The owner of a list may do anything with it.
@id("owner")
permit(principal, action, resource is List)
when { resource.owner == principal };

// Readers and editors of a list may see it.
@id("shared")
permit(principal, action == Action::"GetList", resource)
when { principal in resource.readers || principal in resource.editors };

// Editors of a list may change it and its tasks.
@id("editors")
permit(
    principal,
    action in [Action::"UpdateList", Action::"CreateTask", Action::"UpdateTask", Action::"DeleteTask"],
    resource
)
when { principal in resource.editors };

// Admins may do anything.
@id("admins")
permit(principal in Team::"admin", action, resource);

// Interns create no lists.
@id("interns")
forbid(principal in Team::"interns", action == Action::"CreateList", resource == Application::"TinyTodo");
